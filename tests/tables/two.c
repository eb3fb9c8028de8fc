#include "my_box.h"
#include "parcel.h"

int main(void) { return parcel_version() + my_box_version() == PARCEL_VERSION + MY_BOX_VERSION ? 0 : 1; }
