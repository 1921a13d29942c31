/* Has the module of the page run with this program's words and ends: it asks the server whose socket the environment names in
 * GTPSHOW_SOCKET ('page/gtpshow.mjs --serve'), waits, and ends with the status that the module ended with. */
#include <stdio.h>
#include <stdlib.h>
#include <string.h>
#include <sys/socket.h>
#include <sys/un.h>
#include <unistd.h>

static void put_digits(FILE *to, const char *text)
{
    fputs(" x", to);
    for (; *text; text++) fprintf(to, "%02x", (unsigned char)*text);
}

int main(int argc, char **argv)
{
    enum { NO_SERVER = 71 };
    struct sockaddr_un place = { .sun_family = AF_UNIX };
    char folder[4096], answer[16] = "";
    int end = socket(AF_UNIX, SOCK_STREAM, 0);
    const char *named = getenv("GTPSHOW_SOCKET");
    if (!named || !getcwd(folder, sizeof folder)) return NO_SERVER;
    strncpy(place.sun_path, named, sizeof place.sun_path - 1);
    if (connect(end, (struct sockaddr *)&place, sizeof place)) return NO_SERVER;
    FILE *to = fdopen(dup(end), "w"), *from = fdopen(end, "r");
    if (!to || !from) return NO_SERVER;
    fprintf(to, "%d", (int)getpid());
    put_digits(to, folder);
    for (int k = 1; k < argc; k++) put_digits(to, argv[k]);
    fputs("\n", to);
    if (fclose(to) || !fgets(answer, sizeof answer, from)) return NO_SERVER;
    for (int k = 1; k <= 2; k++) lseek(k, 0, SEEK_END);     /* the server has written behind what stood there */
    return atoi(answer);
}
