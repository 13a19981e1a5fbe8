# Prints the events of a journal of 4,096 requests: 256 contexts of one function are served side
# by side and stay idle. Then each request of another function has a context of its own: the
# first makes the 63 layers of its stack, and the others are deployed from the highest of them.
BEGIN {
    for (i = 1; i <= 256; i++) { print "start", i, 0, 0; print "deploy", i, "image", i, 1 }
    for (i = 1; i <= 256; i++) { print "answer", i, i, 0; print "park", i }
    for (; i <= 4096; i++) {
        print "start", i, 1, 0; print "deploy", i, (i == 257 ? "image" : 63), i, 1
        for (k = 1; i == 257 && k < 64; k++) { print "built", i, k, 1; print "keep", k }
        for (n = 0; n < 3; n++) { print "refill", i, 0, 16; print "back", 16 }
        print "answer", i, i, 0; print "end", i; print "back", 1
    }
}
