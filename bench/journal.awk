# Writes a legal journal of so many plates, each carried whole through the cell: awk -v plates=13000 -f journal.awk
# Between two plates the table goes back to the belt, the first press to its middle and the robot to the table.
BEGIN {
    print "profile,1,,"
    for (k = 1; k <= plates; k++) {
        if (k > 1) go_back()
        carry(k)
    }
}

function go_back() {
    print "claimed,table,z1,"
    print "claimed,table,z2,"
    print "started,table_lift,low,"
    print "arrived,table_lift,low,"
    print "started,table_turn,belt,"
    print "arrived,table_turn,belt,"
    print "yielded,table,z1,"
    print "yielded,table,z2,"
    print "claimed,press1,z3,"
    print "started,press_one,middle,"
    print "arrived,press_one,middle,"
    print "yielded,press1,z3,"
    print "started,robot_turn,table1,"
    print "arrived,robot_turn,table1,"
}

function move(axis, to) {
    print "started," axis "," to ","
    print "arrived," axis "," to ","
}

function carry(k) {
    print "lamp,feed,green,"
    print "admitted," k ",,"
    print "started,feed_belt,to_end,"
    print "conveyed,feed_belt," k ",feed_end"
    print "claimed,feed,z1,"
    print "started,feed_belt,to_table,"
    print "conveyed,feed_belt," k ",table"
    print "yielded,feed,z1,"
    print "claimed,table,z1,"
    print "claimed,table,z2,"
    move("table_lift", "high")
    move("table_turn", "robot")
    print "yielded,table,z1,"
    print "yielded,table,z2,"
    print "claimed,robot,z2,"
    move("arm_one", "out")
    print "gripped,arm1," k ",table"
    move("arm_one", "in")
    print "yielded,robot,z2,"
    print "claimed,robot,z3,"
    move("robot_turn", "p1_load")
    move("arm_one", "out")
    print "dropped,arm1," k ",press1"
    move("arm_one", "in")
    print "yielded,robot,z3,"
    print "claimed,press1,z3,"
    print "started,press_one,top,"
    print "forged,press1," k ","
    move("press_one", "bottom")
    print "yielded,press1,z3,"
    print "claimed,robot,z3,"
    move("robot_turn", "p1_unload")
    move("arm_two", "out")
    print "gripped,arm2," k ",press1"
    move("arm_two", "in")
    print "yielded,robot,z3,"
    print "claimed,robot,z5,"
    move("robot_turn", "deposit2")
    move("arm_two", "out")
    print "dropped,arm2," k ",dep_in"
    move("arm_two", "in")
    print "yielded,robot,z5,"
    print "claimed,deposit,z5,"
    print "started,deposit_belt,to_end,"
    print "conveyed,deposit_belt," k ",dep_end"
    print "yielded,deposit,z5,"
    print "lamp,deposit,green,"
    print "delivered," k ",,"
}
