/* The commands of a live host, a line each, from a FIFO: `add TABLE PREFIX HOP`, `delete TABLE PREFIX`, `stats`; PREFIX as 10.1.0.0/16. */
#ifndef CONTROL_H
#define CONTROL_H

#include "lasting.h"
#include <fcntl.h>
#include <sys/stat.h>
#include <unistd.h>

#define MAX_LINE 128

enum command_kind { ADD_ROUTE, DELETE_ROUTE, PRINT_STATS };

struct command {
    enum command_kind kind;
    struct dpv_route route;
};

/* A FIFO, and the beginning of a line that is not yet whole. */
struct control {
    int fd;
    size_t length;
    char line[MAX_LINE];
};

/* Opens a FIFO for commands, and makes it if there is none. The host also holds the side that writes, so a writer may come and go. */
static inline void open_control(struct control *control, const char *name)
{
    struct stat state;
    if (mkfifo(name, 0600) < 0 && (stat(name, &state) < 0 || !S_ISFIFO(state.st_mode)))
        die(name);
    control->length = 0;
    control->fd = open(name, O_RDWR | O_NONBLOCK | O_CLOEXEC);
    if (control->fd < 0)
        die(name);
}

/* Reads a prefix, as 10.1.0.0/16. Whether it is one; the library refuses a depth that is none. */
static inline int parse_prefix(const char *text, struct dpv_route *route)
{
    unsigned a, b, c, d;
    char rest;
    if (sscanf(text, "%3u.%3u.%3u.%3u/%9u%c", &a, &b, &c, &d, &route->depth, &rest) != 5 || a > 255 || b > 255 || c > 255 || d > 255)
        return 0;
    route->ip = a << 24 | b << 16 | c << 8 | d;
    return 1;
}

/* Reads a line. Whether it is a command. */
static inline int parse_command(const char *line, struct command *command)
{
    char prefix[64], rest;
    memset(command, 0, sizeof *command);
    if (sscanf(line, "add %9u %63s %9u %c", &command->route.table, prefix, &command->route.hop, &rest) == 3) {
        command->kind = ADD_ROUTE;
        return parse_prefix(prefix, &command->route);
    }
    if (sscanf(line, "delete %9u %63s %c", &command->route.table, prefix, &rest) == 2) {
        command->kind = DELETE_ROUTE;
        return parse_prefix(prefix, &command->route);
    }
    command->kind = PRINT_STATS;
    return strcmp(line, "stats") == 0;
}

/* The next command of the FIFO, if a whole line has come. A line that is no command, or too long for one, is reported and left out. */
static inline int next_command(struct control *control, struct command *command)
{
    char byte;
    while (read(control->fd, &byte, 1) == 1) {
        int is_short = control->length < MAX_LINE;
        if (byte != '\n') {
            if (is_short)
                control->line[control->length++] = byte;
            continue;
        }
        control->line[is_short ? control->length : MAX_LINE - 1] = 0;
        control->length = 0;
        if (is_short && parse_command(control->line, command))
            return 1;
        fprintf(stderr, "control: no command: %s\n", control->line);
    }
    return 0;
}

/* What the library says of a change. */
static inline const char *words_of(uint32_t answer)
{
    switch (answer) {
    case DPV_OK: return "done";
    case DPV_NO_TABLE: return "refused, no such table";
    case DPV_BAD_DEPTH: return "refused, the depth is not 1 to 32";
    case DPV_BAD_HOP: return "refused, the hop is above 16777215";
    case DPV_RULES_FULL: return "refused, the table has as many routes as it was made for";
    case DPV_GROUPS_FULL: return "refused, no group is left for a route deeper than 24 bits";
    case DPV_NO_RULE: return "refused, there is no such route";
    default: return "refused";
    }
}

/* Makes a change of a route, and prints what became of it. */
static inline void change_route(struct lasting *lasting, struct command *command)
{
    struct dpv_route *route = &command->route;
    int adds = command->kind == ADD_ROUTE;
    uint32_t answer = change_lasting(lasting, route, adds);
    printf("%s %u %u.%u.%u.%u/%u: %s\n", adds ? "add" : "delete", route->table, route->ip >> 24, route->ip >> 16 & 255, route->ip >> 8 & 255,
           route->ip & 255, route->depth, words_of(answer));
    fflush(stdout);
}

#endif
