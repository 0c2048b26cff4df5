/* A cell of one's own to begin with, which `cellctl control` controls: what moves, how long that takes, and where the plates are.
 * It speaks the cell's half of docs/DRIVING.md, on standard input and output. From the repository's top:
 *
 *     cc -o plant examples/plants/plant.c
 *     mkfifo lines
 *     ./plant 6 < lines | ./cellctl control examples/press_fails.toml /dev/null > lines
 *
 * Each round takes a hundred milliseconds of the cell's own time, and none of anyone else's. To control a model in place of it, send
 * the commands to its motors and take the readings from its switches. */
#include <stdio.h>
#include <stdlib.h>
#include <string.h>

enum { STEP = 100, AXES = 9, STATIONS = 9, NOWHERE = -1 };

/* An axis: its name, its machine, its poses, and how many milliseconds a motion takes. A belt has motions in place of poses. */
static struct axis {
    const char *name, *machine, *poses[7];
    int is_belt, takes, at, to, left;
} axes[AXES] = {
    {"feed_belt", "feed", {"to_end", "to_table"}, 1, 600, NOWHERE, NOWHERE, 0},
    {"table_lift", "table", {"low", "high"}, 0, 800, 0, NOWHERE, 0},
    {"table_turn", "table", {"belt", "robot"}, 0, 500, 0, NOWHERE, 0},
    {"robot_turn", "robot", {"table1", "p1_load", "p1_unload", "p2_load", "p2_unload", "deposit2"}, 0, 900, 0, NOWHERE, 0},
    {"arm_one", "robot", {"in", "out"}, 0, 400, 0, NOWHERE, 0},
    {"arm_two", "robot", {"in", "out"}, 0, 400, 0, NOWHERE, 0},
    {"press_one", "press1", {"middle", "top", "bottom"}, 0, 1100, 0, NOWHERE, 0},
    {"press_two", "press2", {"middle", "top", "bottom"}, 0, 1300, 0, NOWHERE, 0},
    {"deposit_belt", "deposit", {"to_end"}, 1, 700, NOWHERE, NOWHERE, 0},
};
static const char *machines[] = {"feed", "table", "robot", "press1", "press2", "deposit"};
static const char *stations[] = {"feed_in", "feed_end", "table", "arm1", "arm2", "press1", "press2", "dep_in", "dep_end"};
static const char *seen_by[] = {"feed_in feed_end table", "table", "arm1 arm2", "press1", "press2", "dep_in dep_end"};
static int plates[STATIONS];
static int planned, laid, feed_is_green, deposit_is_green;

static int station(const char *name) {
    for (int i = 0; i < STATIONS; i++)
        if (!strcmp(stations[i], name)) return i;
    return NOWHERE;
}

static struct axis *axis(const char *name) {
    for (int i = 0; i < AXES; i++)
        if (!strcmp(axes[i].name, name)) return &axes[i];
    return NULL;
}

static int is_machine(const char *name) {
    for (int i = 0; i < 6; i++)
        if (!strcmp(machines[i], name)) return 1;
    return 0;
}

/* Where a motion of a belt begins; it ends at the next station. */
static int begins(const struct axis *belt, int motion) {
    return belt == &axes[0] ? motion : 7;
}

/* A plate goes from a station to another one, if it can. */
static void carry(int from, int to) {
    if (from == NOWHERE || to == NOWHERE || !plates[from] || plates[to]) return;
    plates[to] = plates[from];
    plates[from] = 0;
}

/* The station before an arm that is out, by where the robot is turned. */
static int before(const char *arm) {
    static const char *faced[2][6] = {{"table", "press1", "", "press2", "", ""}, {"", "", "press1", "", "press2", "dep_in"}};
    int is_second = !strcmp(arm, "arm2"), turn = axes[3].at;
    return turn == NOWHERE || axes[4 + is_second].at != 1 ? NOWHERE : station(faced[is_second][turn]);
}

/* A step of time goes by. */
static void move(void) {
    for (struct axis *a = axes; a < axes + AXES; a++) {
        if (a->to == NOWHERE || (a->left -= STEP) > 0) {
            if (a->to != NOWHERE) a->at = NOWHERE;
        } else if (!a->is_belt) {
            a->at = a->to;
            a->to = NOWHERE;
        } else {
            carry(begins(a, a->to), begins(a, a->to) + 1);
        }
    }
    if (feed_is_green && laid < planned && !plates[0] && !plates[1]) plates[0] = ++laid;
    if (deposit_is_green) plates[8] = 0;
}

/* Whether the plate of a station is shown: it isn't while a belt carries it. */
static int shows(int at) {
    for (struct axis *a = axes; a < axes + AXES; a++)
        if (a->is_belt && a->to != NOWHERE && begins(a, a->to) == at && a->left <= a->takes - 2 * STEP) return 0;
    return at != NOWHERE && plates[at] != 0;
}

static void show(int number) {
    for (int m = 0; m < 6; m++) {
        char list[64], *name;
        const char *sign = "";
        printf("reading,%s,", machines[m]);
        for (struct axis *a = axes; a < axes + AXES; a++) {
            if (a->is_belt || strcmp(a->machine, machines[m])) continue;
            printf("%s%s", sign, a->at == NOWHERE ? "" : a->poses[a->at]);
            sign = "/";
        }
        putchar(',');
        sign = "";
        strcpy(list, seen_by[m]);
        for (name = strtok(list, " "); name; name = strtok(NULL, " ")) {
            if (!shows(station(name))) continue;
            printf("%s%s", sign, name);
            sign = "+";
        }
        putchar('\n');
    }
    printf("round,%d,,\n", number);
}

static int start(struct axis *a, const char *pose) {
    for (int i = 0; a && i < 7 && a->poses[i]; i++) {
        if (strcmp(a->poses[i], pose)) continue;
        a->to = i;
        a->left = a->takes;
        return 1;
    }
    return 0;
}

/* Stops a machine's axes, or puts them at home. */
static int stop(const char *machine, int goes_home) {
    for (struct axis *a = axes; a < axes + AXES; a++) {
        if (strcmp(a->machine, machine)) continue;
        a->to = NOWHERE;
        if (goes_home && !a->is_belt) a->at = 0;
    }
    if (!strcmp(machine, "feed")) feed_is_green = 0;
    if (!strcmp(machine, "deposit")) deposit_is_green = 0;
    return is_machine(machine);
}

/* Does what a command says, and says whether it is one. */
static int obey(const char *word, const char *first, const char *second) {
    struct axis *a = axis(first);
    if (!strcmp(word, "on")) return start(a, second);
    if (!strcmp(word, "off")) {
        if (a && a->is_belt) a->to = NOWHERE;
        return a != NULL;
    }
    if (!strcmp(word, "all_off")) return stop(first, 0);
    if (!strcmp(word, "home")) return stop(first, 1);
    if (!strcmp(word, "magnet_on")) carry(before(first), station(first));
    else if (!strcmp(word, "magnet_off")) carry(station(first), before(first));
    else if (!strcmp(word, "lamp") && !strcmp(first, "feed")) feed_is_green = !strcmp(second, "green");
    else if (!strcmp(word, "lamp") && !strcmp(first, "deposit")) deposit_is_green = !strcmp(second, "green");
    else if (!strcmp(word, "remove") && station(first) != NOWHERE) plates[station(first)] = 0;
    else return 0;
    return 1;
}

int main(int count, char **words) {
    char line[100], word[32], first[32], second[32];
    int number = 1;
    planned = count > 1 ? atoi(words[1]) : 6;
    printf("drive,1,%d,\n", planned);
    show(number);
    fflush(stdout);
    while (fgets(line, sizeof line, stdin)) {
        word[0] = first[0] = second[0] = 0;
        if (sscanf(line, "%31[^,\n],%31[^,\n],%31[^,\n]", word, first, second) < 1) continue;
        if (!strcmp(word, "quit")) break;
        if (!strcmp(word, "done")) {
            move();
            show(++number);
        } else if (!strcmp(word, "sync")) {
            printf("synced,%s,,\n", first);
            show(number);
        } else if (strcmp(word, "booked") && strcmp(word, "refused")) {
            puts(obey(word, first, second) ? "ok,,," : "unreadable,,,");
        }
        fflush(stdout);
    }
    puts("end,quit,,");
    return 0;
}
