# Decks of much code: a loop of 752 instructions where `long` is given, else 10,002 instructions that are done once each.
BEGIN {
    turns = long ? 150 : 2500
    print " START   LCI,$X1,9"
    for (n = 0; n < turns; n++) {
        print "         V+I,$X2,0.32"
        print "         L(BU,64),SUM"
        print "         +(BU,64),ONE"
        print "         ST(BU,64),SUM"
        if (long) print "         LVI,$X3,1.0"
    }
    print "         B,START"
    print " SUM     DD(BU,64),0"
    print " ONE     DD(BU,64),1"
    print "         END,START"
    print "/BUDGET 120000"
}
