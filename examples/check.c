/* Says whether a volume is well formed and, if it isn't, what to try next: check VOLUME
 *
 *     cc check.c -lluks -o check
 */
#include <fcntl.h>
#include <luks.h>
#include <stdio.h>

int main(int count, char **words)
{
    struct luks_report report = {.size = sizeof report};
    char text[1024];
    uint8_t *room = (uint8_t *)text;
    int fd = count == 2 ? open(words[1], O_RDONLY) : -1;
    uint32_t answer = luks_check(fd, 0, LUKS_TO_END, false, &report);
    if (answer == LUKS_DONE) {
        printf("accepted luks%u areas %llu\n", report.version, (unsigned long long)report.areas);
        return 0;
    }
    printf("refused %.*s\n", (int)luks_fault_name(answer, room, sizeof text), text);
    printf("means  %.*s\n", (int)luks_fault_text(answer, 1, room, sizeof text), text);
    printf("next   %.*s\n", (int)luks_fault_text(answer, 4, room, sizeof text), text);
    return 1;
}
