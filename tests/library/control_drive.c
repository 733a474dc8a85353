/* control_drive: takes commands from standard input as a host does, and prints each; for tests/library/host.py. */
#include "../../examples/live/control.h"

int main(void)
{
    struct control control = {.fd = 0};
    struct command command;
    while (next_command(&control, &command)) {
        const struct dpv_route *route = &command.route;
        if (command.kind == PRINT_STATS)
            printf("stats\n");
        else
            printf("%s %u %08x/%u %u\n", command.kind == ADD_ROUTE ? "add" : "delete", route->table, route->ip, route->depth, route->hop);
    }
    return 0;
}
