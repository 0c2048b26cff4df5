# Writes the settings and the two scripts of so many runs into a folder, by a seed:
# awk -v seed=1 -v runs=1000 -v folder=DIR -f stress.awk
# Run N has the files N.settings, N.faults and N.operator, and a line of the output: N, its number of plates, and `plain`
# where it has no fault, no stop and no limit, else `other`. One run in eight is plain.
BEGIN {
    split("feed_belt table_lift table_turn robot_turn arm_one arm_two press_one press_two deposit_belt", axes, " ")
    split("feed table table robot robot robot press1 press2 deposit", machine_of_axis, " ")
    split("feed table robot press1 press2 deposit", machines, " ")
    split("feed_in feed_end table arm1 arm2 press1 press2 dep_in dep_end", stations, " ")
    split("feed feed table robot robot press1 press2 deposit deposit", machine_of_station, " ")
    split("no_motion keeps_old both slow lose_plate silent refuse_command", kinds, " ")
    state = seed % 2147483646 + 1
    for (i = 0; i < 10; i++) below(2)
    for (run = 1; run <= runs; run++) write_run()
}

# A number from 0 to n - 1, by the generator of Park and Miller, whose products are exact in awk's numbers.
function below(n) {
    state = (state * 16807) % 2147483647
    return state % n
}

function write_run(    plain, plates) {
    plain = below(8) == 0
    plates = 1 + below(8)
    write_settings(folder "/" run ".settings", plates, plain)
    write_faults(folder "/" run ".faults", plates, plain ? 0 : below(5))
    write_operator(folder "/" run ".operator", plates, plain ? 0 : below(4))
    print run, plates, plain ? "plain" : "other"
}

# One run in six has a short journal, one in six few turns, and one in three other limits for the readings of some axes.
function write_settings(file, plates, plain,    i, leave) {
    print "plates = " plates > file
    if (!plain && below(6) == 0) print "journal_limit = " 1 + below(90 * plates) > file
    if (!plain && below(6) == 0) print "turns = " 1 + below(150 * plates) > file
    if (!plain && below(3) == 0) {
        for (i = 1; i <= 9; i++) {
            if (below(3) > 0) continue
            leave = 2 + below(6)
            print "[watch." axes[i] "]\nleave = " leave "\nlimit = " leave + 1 + below(30) > file
        }
    }
    close(file)
}

# So many faults, of which no two are in one motion of an axis. Their machines are kept in `faulty`.
function write_faults(file, plates, count,    i, place, axis, motion, kind, planned) {
    printf "" > file
    faults = 0
    for (i = 0; i < count; i++) {
        place = 1 + below(9)
        axis = axes[place]
        motion = 1 + below(4 * plates)
        kind = kinds[1 + below(7)]
        if ((axis, motion) in planned) continue
        planned[axis, motion] = 1
        faulty[++faults] = machine_of_axis[place]
        print axis "," motion "," kind "," (kind == "slow" || kind == "silent" ? readings() : "") > file
    }
    close(file)
}

# How many readings a fault lasts: mostly few, so that runs go on, and at times many.
function readings() {
    return below(5) == 0 ? 1 + below(1000) : 1 + below(25)
}

# The operator does nothing (0), clears and repairs the machines of the faults (1), stops machines and repairs some (2), or
# does this and that (3).
function write_operator(file, plates, way,    i, count) {
    printf "" > file
    if (way == 1) for (i = 1; i <= faults; i++) write_help(file, faulty[i])
    if (way == 2) {
        count = 1 + below(2)
        for (i = 0; i < count; i++) write_action(file, plates, "stop")
        count = below(5)
        for (i = 0; i < count; i++) write_help(file, machines[1 + below(6)])
    }
    if (way == 3) {
        count = 1 + below(6)
        for (i = 0; i < count; i++) write_action(file, plates, below(3) == 0 ? "stop" : below(2) == 0 ? "clear" : "repair")
    }
    close(file)
}

# Where a machine has failed, some of its stations are cleared, and it is repaired.
function write_help(file, machine,    i) {
    for (i = 1; i <= 9; i++) {
        if (machine_of_station[i] == machine && below(2) == 0) print "failed," machine ",clear," stations[i] > file
    }
    print "failed," machine ",repair," machine > file
}

function write_action(file, plates, action) {
    print when(plates) "," action "," (action == "clear" ? stations[1 + below(9)] : machines[1 + below(6)]) > file
}

function when(plates,    kind) {
    kind = below(5)
    if (kind == 0) return "always,"
    if (kind == 1) return "admitted," below(plates + 1)
    if (kind == 2) return "delivered," below(plates + 1)
    if (kind == 3) return "quarantined," below(2)
    return "failed," machines[1 + below(6)]
}
