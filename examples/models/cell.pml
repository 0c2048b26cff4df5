/* The production cell as a model for SPIN: all that can happen in it, in every order.

   A feed belt carries plates to an elevating rotary table, and the table brings them to a robot. The robot's arm 1 loads one of two
   presses; its arm 2 takes the forged plate out and lays it on a deposit belt. Somebody lays plates in and takes them out, under
   traffic lights. One machine may fail, at any moment; nobody repairs it.

   The machines, the two arms, the order of a press, and what must not collide or lie on each other are those of LNCS 891
   (Lewerentz and Lindner, editors, 1995), without its crane. The rest is this project's own. Each part below says which is which.

   The variables below are a state of the cell. A rule stands on a line, or on two:

       rule("the entry that is booked", when it can happen, what it changes)

   The entry is a line of a journal, with * in place of the plate's number: plates aren't told apart here. A machine books what it
   wants and nothing forbids. That may be one of several entries, and any of them can be the next. The end of a motion is booked
   when it comes, unless its machine failed before. Each time that a rule is followed is a step from a state to the next.

   The claim: the cell is never stuck. It is stuck if nothing but a failure can happen though a plate is left: one that wasn't laid
   in yet, or one that stands in a healthy machine. With one to three plates SPIN finds that the claim holds if no machine or a
   press may fail; if another machine may, a plate can be left that nothing moves. To try it, with a copy in a folder of its own:

       spin -a -DPLATES=2 -DFAILS=table cell.pml        so many plates, else 1; this machine may fail, else none
       cc -O2 -DSAFETY -DNOREDUCE -DBFS -o pan pan.c    all orders of steps, and the shortest first
       ./pan                                            says "errors: 0" if the claim holds
       spin -t -T -DPLATES=2 -DFAILS=table cell.pml     if it doesn't: which entries lead to a stuck cell

   -DCOUNTS leaves the claim out, for counting: then SPIN's states are the states, and its transitions are the steps and one for
   the opening. Call ./pan -E then, since a state that nothing follows is no error. */

#ifndef PLATES
#define PLATES 1
#endif
#ifndef FAILS
#define FAILS none
#endif

mtype = { none, feed, table, robot, press1, press2, deposit };           /* a machine, or none */
mtype = { rest, to_end, to_table };                                      /* a belt: at rest, or which way it goes */
mtype = { low, to_high, high, to_low };                                  /* the table's lift: its pose, or where it goes */
mtype = { belt, to_robot, to_belt };                                     /* the table's turn; its other pose is robot */
mtype = { table1, p1_load, p1_unload, p2_load, p2_unload, deposit2 };    /* the robot's turn, by what an arm faces there */
mtype = { drawn_in, to_out, out, to_in };                                /* an arm */
mtype = { middle, to_top, top, to_bottom, bottom, to_middle };           /* a press */
mtype = { red, green };                                                  /* a light */

/* The axes: where each stands or goes. */
mtype feed_belt = rest;
mtype table_lift = low;
mtype table_turn = belt;
mtype robot_turn = table1;              /* the pose that it has, or has left */
mtype robot_turn_to = table1;           /* the pose to which it goes; at rest it is the pose that it has */
mtype arm_one = drawn_in;
mtype arm_two = drawn_in;
mtype press_one = middle;
mtype press_two = middle;
mtype deposit_belt = rest;

/* The stations: whether a plate stands there. */
bool plate_at_feed_in;                  /* where plates are laid in */
bool plate_at_feed_end;                 /* the feed belt's end, at the table */
bool plate_at_table;
bool plate_at_arm1;
bool plate_at_arm2;
bool plate_at_press1;
bool plate_at_press2;
bool plate_at_dep_in;                   /* where arm 2 lays plates on the deposit belt */
bool plate_at_dep_end;                  /* the deposit belt's end, where plates are taken out */

/* The zones: places where two machines could meet, and which of the two holds each. */
mtype z1 = none;                        /* the table or the feed belt */
mtype z2 = none;                        /* the table or the robot */
mtype z3 = none;                        /* press 1 or the robot */
mtype z4 = none;                        /* press 2 or the robot */
mtype z5 = none;                        /* the deposit belt or the robot */

mtype feed_light = red;                 /* green: a plate may be laid in */
mtype deposit_light = red;              /* green: a plate may be taken out */
byte admitted = 0;                      /* how many plates were laid in */
short press1_ahead = 0;                 /* how many plates press 1 forged more than press 2 */
mtype failed = none;                    /* the machine that failed */

#define healthy(machine) (failed != machine)
#define moves(from, to) from = false; to = true
#define rule(entry, condition, change) :: d_step { condition -> change; printf(entry); printf("\n") }

active proctype cell()
{
    do

/* THE FEED BELT
   LNCS 891: it brings a plate to the table only if the table waits for one, low, turned to the belt and empty.
   Own: the light, which is green only over an empty belt at rest, while plates are to come; zone z1, which the belt claims once the
   table waits, and gives up when it has no plate to bring or the table doesn't wait. */

#define has_room (feed_belt == rest && !plate_at_feed_in && !plate_at_feed_end && admitted < PLATES)
#define table_waits (healthy(table) && table_lift == low && table_turn == belt && !plate_at_table)
#define is_to_bring (feed_belt == rest && plate_at_feed_end && table_waits)

rule("lamp,feed,green,", healthy(feed) && has_room && feed_light == red, feed_light = green)
rule("lamp,feed,red,", healthy(feed) && !has_room && feed_light == green, feed_light = red)
rule("admitted,*,,", healthy(feed) && feed_light == green && admitted < PLATES,
     plate_at_feed_in = true; admitted = admitted + 1; feed_light = red)

rule("started,feed_belt,to_end,", healthy(feed) && feed_belt == rest && plate_at_feed_in && !plate_at_feed_end, feed_belt = to_end)
rule("conveyed,feed_belt,*,feed_end", healthy(feed) && feed_belt == to_end && plate_at_feed_in,
     moves(plate_at_feed_in, plate_at_feed_end); feed_belt = rest)

rule("claimed,feed,z1,", healthy(feed) && is_to_bring && z1 == none, z1 = feed)
rule("started,feed_belt,to_table,", healthy(feed) && is_to_bring && z1 == feed, feed_belt = to_table)
rule("conveyed,feed_belt,*,table", healthy(feed) && feed_belt == to_table && plate_at_feed_end,
     moves(plate_at_feed_end, plate_at_table); feed_belt = rest)
rule("yielded,feed,z1,", healthy(feed) && feed_belt == rest && !is_to_bring && z1 == feed, z1 = none)

/* THE TABLE
   LNCS 891: with a plate it goes up and turns to the robot; without one it goes down and turns back to the belt.
   Own: lift and turn go one after the other, either of them first; zones z1 and z2, both of which it claims before it moves, and
   gives up once it is where it should be. */

#define table_is_at_rest ((table_lift == low || table_lift == high) && (table_turn == belt || table_turn == robot))
#define table_is_at_robot (table_lift == high && table_turn == robot)
#define table_is_at_belt (table_lift == low && table_turn == belt)
#define table_is_there ((plate_at_table && table_is_at_robot) || (!plate_at_table && table_is_at_belt))
#define table_is_to_move (healthy(table) && table_is_at_rest && !table_is_there)
#define table_may_move (table_is_to_move && z1 == table && z2 == table)

rule("claimed,table,z1,", table_is_to_move && z1 == none, z1 = table)
rule("claimed,table,z2,", table_is_to_move && z2 == none, z2 = table)

rule("started,table_lift,high,", table_may_move && plate_at_table && table_lift == low, table_lift = to_high)
rule("arrived,table_lift,high,", healthy(table) && table_lift == to_high, table_lift = high)
rule("started,table_turn,robot,", table_may_move && plate_at_table && table_turn == belt, table_turn = to_robot)
rule("arrived,table_turn,robot,", healthy(table) && table_turn == to_robot, table_turn = robot)

rule("started,table_lift,low,", table_may_move && !plate_at_table && table_lift == high, table_lift = to_low)
rule("arrived,table_lift,low,", healthy(table) && table_lift == to_low, table_lift = low)
rule("started,table_turn,belt,", table_may_move && !plate_at_table && table_turn == robot, table_turn = to_belt)
rule("arrived,table_turn,belt,", healthy(table) && table_turn == to_belt, table_turn = belt)

rule("yielded,table,z1,", healthy(table) && table_is_there && z1 == table, z1 = none)
rule("yielded,table,z2,", healthy(table) && table_is_there && z2 == table, z2 = none)

/* THE PRESSES
   LNCS 891: a press is loaded in the middle, goes up and has forged the plate at the top, goes down to the bottom, is unloaded
   there, and goes up to the middle; while an arm is in it, it doesn't move.
   Own: that there are two; zones z3 and z4: a press claims its zone once it is loaded or unloaded, and gives it up when it waits
   for an arm. */

#define press1_waits (healthy(press1) && press_one == middle && !plate_at_press1)
#define press1_is_loaded (healthy(press1) && press_one == middle && plate_at_press1)
#define press1_has_forged (healthy(press1) && press_one == bottom && plate_at_press1)
#define press1_is_unloaded (healthy(press1) && press_one == bottom && !plate_at_press1)

rule("claimed,press1,z3,", (press1_is_loaded || press1_is_unloaded) && z3 == none, z3 = press1)
rule("started,press_one,top,", press1_is_loaded && z3 == press1, press_one = to_top)
rule("forged,press1,*,", healthy(press1) && press_one == to_top && plate_at_press1,
     press_one = top; press1_ahead = press1_ahead + 1)
rule("started,press_one,bottom,", healthy(press1) && press_one == top && z3 == press1, press_one = to_bottom)
rule("arrived,press_one,bottom,", healthy(press1) && press_one == to_bottom, press_one = bottom)
rule("started,press_one,middle,", press1_is_unloaded && z3 == press1, press_one = to_middle)
rule("arrived,press_one,middle,", healthy(press1) && press_one == to_middle, press_one = middle)
rule("yielded,press1,z3,", (press1_waits || press1_has_forged) && z3 == press1, z3 = none)

#define press2_waits (healthy(press2) && press_two == middle && !plate_at_press2)
#define press2_is_loaded (healthy(press2) && press_two == middle && plate_at_press2)
#define press2_has_forged (healthy(press2) && press_two == bottom && plate_at_press2)
#define press2_is_unloaded (healthy(press2) && press_two == bottom && !plate_at_press2)

rule("claimed,press2,z4,", (press2_is_loaded || press2_is_unloaded) && z4 == none, z4 = press2)
rule("started,press_two,top,", press2_is_loaded && z4 == press2, press_two = to_top)
rule("forged,press2,*,", healthy(press2) && press_two == to_top && plate_at_press2,
     press_two = top; press1_ahead = press1_ahead - 1)
rule("started,press_two,bottom,", healthy(press2) && press_two == top && z4 == press2, press_two = to_bottom)
rule("arrived,press_two,bottom,", healthy(press2) && press_two == to_bottom, press_two = bottom)
rule("started,press_two,middle,", press2_is_unloaded && z4 == press2, press_two = to_middle)
rule("arrived,press_two,middle,", healthy(press2) && press_two == to_middle, press_two = middle)
rule("yielded,press2,z4,", (press2_waits || press2_has_forged) && z4 == press2, z4 = none)

/* THE ROBOT: what there is to do
   LNCS 891: arm 1 fetches a plate from the table and loads a press that waits in the middle; arm 2 unloads a press at the bottom
   and lays the plate on the deposit belt. An arm holds one plate.
   Own: the robot serves no failed machine, nor a deposit belt that moves. */

#define can_fetch (!plate_at_arm1 && healthy(table) && table_is_at_robot && plate_at_table)
#define can_load_press1 (plate_at_arm1 && press1_waits)
#define can_load_press2 (plate_at_arm1 && press2_waits)
#define can_unload_press1 (!plate_at_arm2 && press1_has_forged)
#define can_unload_press2 (!plate_at_arm2 && press2_has_forged)
#define can_deposit (plate_at_arm2 && healthy(deposit) && deposit_belt == rest && !plate_at_dep_in)

/* Own: to load, the robot goes only to the press that is chosen: of those that wait and don't hold their zone, the one that forged
   fewer plates, and press 1 if both forged as many. */

#define press1_is_ready (press1_waits && z3 != press1)
#define press2_is_ready (press2_waits && z4 != press2)
#define press1_is_chosen (press1_is_ready && (!press2_is_ready || press1_ahead <= 0))
#define press2_is_chosen (press2_is_ready && (!press1_is_ready || press1_ahead > 0))
#define is_for_press1 ((can_load_press1 && press1_is_chosen) || can_unload_press1)
#define is_for_press2 ((can_load_press2 && press2_is_chosen) || can_unload_press2)

/* Own: with both arms drawn in the robot claims a zone where it has something to do, one zone at a time, and gives it up when it
   has nothing to do there. */

#define turn_is_at_rest (robot_turn == robot_turn_to)
#define robot_is_in (healthy(robot) && turn_is_at_rest && arm_one == drawn_in && arm_two == drawn_in)
#define robot_holds_none (z2 != robot && z3 != robot && z4 != robot && z5 != robot)

rule("claimed,robot,z2,", robot_is_in && robot_holds_none && can_fetch && z2 == none, z2 = robot)
rule("claimed,robot,z3,", robot_is_in && robot_holds_none && is_for_press1 && z3 == none, z3 = robot)
rule("claimed,robot,z4,", robot_is_in && robot_holds_none && is_for_press2 && z4 == none, z4 = robot)
rule("claimed,robot,z5,", robot_is_in && robot_holds_none && can_deposit && z5 == none, z5 = robot)

rule("yielded,robot,z2,", robot_is_in && z2 == robot && !can_fetch, z2 = none)
rule("yielded,robot,z3,", robot_is_in && z3 == robot && !can_load_press1 && !can_unload_press1, z3 = none)
rule("yielded,robot,z4,", robot_is_in && z4 == robot && !can_load_press2 && !can_unload_press2, z4 = none)
rule("yielded,robot,z5,", robot_is_in && z5 == robot && !can_deposit, z5 = none)

/* THE ROBOT: how it goes there
   LNCS 891: an arm comes to a machine as the robot turns and the arm goes out, and nothing may be in its way.
   Own: the robot turns, and an arm goes out, only while both arms are drawn in and the robot holds the zone. */

#define fetches (robot_is_in && z2 == robot && can_fetch)
#define loads_press1 (robot_is_in && z3 == robot && can_load_press1)
#define loads_press2 (robot_is_in && z4 == robot && can_load_press2)
#define unloads_press1 (robot_is_in && z3 == robot && can_unload_press1)
#define unloads_press2 (robot_is_in && z4 == robot && can_unload_press2)
#define deposits (robot_is_in && z5 == robot && can_deposit)

rule("started,robot_turn,table1,", fetches && robot_turn != table1, robot_turn_to = table1)
rule("started,robot_turn,p1_load,", loads_press1 && robot_turn != p1_load, robot_turn_to = p1_load)
rule("started,robot_turn,p1_unload,", unloads_press1 && robot_turn != p1_unload, robot_turn_to = p1_unload)
rule("started,robot_turn,p2_load,", loads_press2 && robot_turn != p2_load, robot_turn_to = p2_load)
rule("started,robot_turn,p2_unload,", unloads_press2 && robot_turn != p2_unload, robot_turn_to = p2_unload)
rule("started,robot_turn,deposit2,", deposits && robot_turn != deposit2, robot_turn_to = deposit2)

#define turns_to(pose) (healthy(robot) && robot_turn_to == pose && robot_turn != pose)

rule("arrived,robot_turn,table1,", turns_to(table1), robot_turn = table1)
rule("arrived,robot_turn,p1_load,", turns_to(p1_load), robot_turn = p1_load)
rule("arrived,robot_turn,p1_unload,", turns_to(p1_unload), robot_turn = p1_unload)
rule("arrived,robot_turn,p2_load,", turns_to(p2_load), robot_turn = p2_load)
rule("arrived,robot_turn,p2_unload,", turns_to(p2_unload), robot_turn = p2_unload)
rule("arrived,robot_turn,deposit2,", turns_to(deposit2), robot_turn = deposit2)

#define arm1_is_there ((fetches && robot_turn == table1) || \
    (loads_press1 && robot_turn == p1_load) || (loads_press2 && robot_turn == p2_load))
#define arm2_is_there ((deposits && robot_turn == deposit2) || \
    (unloads_press1 && robot_turn == p1_unload) || (unloads_press2 && robot_turn == p2_unload))

rule("started,arm_one,out,", arm1_is_there, arm_one = to_out)
rule("arrived,arm_one,out,", healthy(robot) && arm_one == to_out, arm_one = out)
rule("started,arm_two,out,", arm2_is_there, arm_two = to_out)
rule("arrived,arm_two,out,", healthy(robot) && arm_two == to_out, arm_two = out)

/* THE ROBOT: what an arm does there
   LNCS 891: it takes the plate if it holds none, or lays its plate where none is.
   Own: not at a machine that failed meanwhile; and with nothing to take or to lay it is drawn in. */

#define faces(pose) (turn_is_at_rest && robot_turn == pose)
#define arm1_takes_from_table (arm_one == out && faces(table1) && healthy(table) && plate_at_table && !plate_at_arm1)
#define arm1_lays_into_press1 (arm_one == out && faces(p1_load) && healthy(press1) && plate_at_arm1 && !plate_at_press1)
#define arm1_lays_into_press2 (arm_one == out && faces(p2_load) && healthy(press2) && plate_at_arm1 && !plate_at_press2)
#define arm1_has_nothing_to_do (arm_one == out && !arm1_takes_from_table && !arm1_lays_into_press1 && !arm1_lays_into_press2)

rule("gripped,arm1,*,table", healthy(robot) && arm1_takes_from_table, moves(plate_at_table, plate_at_arm1))
rule("dropped,arm1,*,press1", healthy(robot) && arm1_lays_into_press1, moves(plate_at_arm1, plate_at_press1))
rule("dropped,arm1,*,press2", healthy(robot) && arm1_lays_into_press2, moves(plate_at_arm1, plate_at_press2))
rule("started,arm_one,in,", healthy(robot) && arm1_has_nothing_to_do, arm_one = to_in)
rule("arrived,arm_one,in,", healthy(robot) && arm_one == to_in, arm_one = drawn_in)

#define arm2_takes_from_press1 (arm_two == out && faces(p1_unload) && healthy(press1) && plate_at_press1 && !plate_at_arm2)
#define arm2_takes_from_press2 (arm_two == out && faces(p2_unload) && healthy(press2) && plate_at_press2 && !plate_at_arm2)
#define arm2_lays_on_belt (arm_two == out && faces(deposit2) && healthy(deposit) && plate_at_arm2 && !plate_at_dep_in)
#define arm2_has_nothing_to_do (arm_two == out && !arm2_takes_from_press1 && !arm2_takes_from_press2 && !arm2_lays_on_belt)

rule("gripped,arm2,*,press1", healthy(robot) && arm2_takes_from_press1, moves(plate_at_press1, plate_at_arm2))
rule("gripped,arm2,*,press2", healthy(robot) && arm2_takes_from_press2, moves(plate_at_press2, plate_at_arm2))
rule("dropped,arm2,*,dep_in", healthy(robot) && arm2_lays_on_belt, moves(plate_at_arm2, plate_at_dep_in))
rule("started,arm_two,in,", healthy(robot) && arm2_has_nothing_to_do, arm_two = to_in)
rule("arrived,arm_two,in,", healthy(robot) && arm_two == to_in, arm_two = drawn_in)

/* THE DEPOSIT BELT
   LNCS 891: it takes plates away from the robot, and keeps them apart.
   Own: zone z5, which it claims to convey a plate to its empty end, and gives up when none is to be conveyed; the light, which is
   green over a plate at the end of the belt at rest. */

#define is_to_convey (deposit_belt == rest && plate_at_dep_in && !plate_at_dep_end)
#define is_to_be_taken (deposit_belt == rest && plate_at_dep_end)

rule("claimed,deposit,z5,", healthy(deposit) && is_to_convey && z5 == none, z5 = deposit)
rule("started,deposit_belt,to_end,", healthy(deposit) && is_to_convey && z5 == deposit, deposit_belt = to_end)
rule("conveyed,deposit_belt,*,dep_end", healthy(deposit) && deposit_belt == to_end && plate_at_dep_in,
     moves(plate_at_dep_in, plate_at_dep_end); deposit_belt = rest)
rule("yielded,deposit,z5,", healthy(deposit) && deposit_belt == rest && !is_to_convey && z5 == deposit, z5 = none)

rule("lamp,deposit,green,", healthy(deposit) && is_to_be_taken && deposit_light == red, deposit_light = green)
rule("lamp,deposit,red,", healthy(deposit) && !is_to_be_taken && deposit_light == green, deposit_light = red)
rule("delivered,*,,", healthy(deposit) && plate_at_dep_end && deposit_light == green, plate_at_dep_end = false; deposit_light = red)

/* THE CLAIM
   Where none of these rules can be followed, no plate is left. */

#define left_in(machine, station) (station && healthy(machine))
#define left_in_feed (left_in(feed, plate_at_feed_in) || left_in(feed, plate_at_feed_end))
#define left_in_robot (left_in(robot, plate_at_arm1) || left_in(robot, plate_at_arm2))
#define left_in_a_press (left_in(press1, plate_at_press1) || left_in(press2, plate_at_press2))
#define left_in_deposit (left_in(deposit, plate_at_dep_in) || left_in(deposit, plate_at_dep_end))
#define a_plate_is_left \
    (admitted < PLATES || left_in_feed || left_in(table, plate_at_table) || left_in_robot || left_in_a_press || left_in_deposit)

#ifndef COUNTS
    :: d_step { else -> assert(!a_plate_is_left) }
#endif
    od
}

/* THE FAILURE
   Own: the machine that may fail is declared failed, once, at any moment. What moves in it doesn't arrive, its light is red, and it
   keeps its zones and its plates. */

#define may_fail(machine) (FAILS == machine && failed == none)

active proctype failure()
{
    do
rule("declared,feed,command_fault,", may_fail(feed), failed = feed; feed_light = red)
rule("declared,table,command_fault,", may_fail(table), failed = table)
rule("declared,robot,command_fault,", may_fail(robot), failed = robot)
rule("declared,press1,command_fault,", may_fail(press1), failed = press1)
rule("declared,press2,command_fault,", may_fail(press2), failed = press2)
rule("declared,deposit,command_fault,", may_fail(deposit), failed = deposit; deposit_light = red)
    od
}
