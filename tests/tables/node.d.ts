interface Buffer extends Uint8Array {}
declare const Buffer: { from(text: string): Buffer };
