/* Stands for the tests of scenarios, one of which ends well, and for a program, which says what it is told to say by its word. */
#include <stdlib.h>
#include <string.h>
#include <unistd.h>

static int say(const char *line)
{
    return write(1, line, strlen(line)) < 0 ? 2 : 1;
}

static int answer(const char *word, int refused)
{
    if (!refused)
        return write(1, "right\n", 6) != 6;
    if (strstr(word, "answers_less") && refused > 1)
        return write(1, "less\n", 5) != 5;
    const char *said = strstr(word, "says_why") ? "use_planted: out of memory\n" : "use_planted: something\n";
    return write(2, said, strlen(said)) < 0 || strstr(word, "with_status_0") ? 0 : 2;
}

int main(int count, char **words)
{
    if (count < 2 || !strcmp(words[1], "--list")) {
        say("refusals::ends_well: test\nrefusals::ends_well_too: test\nrefusals::asks_for_nothing: test\n");
        say("refusals::gives_another_answer: test\nrefusals::is_never_ample: test\n");
        return 0;
    }
    if (strstr(words[1], "is_never_ample"))
        return say("error: \"memory was refused\"\n");
    if (strstr(words[1], "asks_for_nothing"))
        return 0;
    void *volatile one = malloc(10), *volatile other = malloc(10);
    if (count > 1 && strstr(words[1], "program"))
        return answer(words[1], !one ? 2 : !other);
    if (one && other)
        return 0;
    return say(strstr(words[1], "ends_well") ? "error: \"memory was refused\"\n" : "panicked\n");
}
