# Prints a plan of 64 layers, one on another on the image of the file IMAGE, and 64 functions.
BEGIN {
    print "frames = 64\nworkers = 1\nidle = 1\nlayers = 64"
    for (i = 0; i < 64; i++) {
        print "[[layer]]\nname = \"layer-" i "\""
        print i ? "below = \"layer-" (i - 1) "\"" : "image = \"" IMAGE "\""
        print "trigger = 65544\npackets = [\"00010203\", \"04050607\"]"
    }
    for (i = 0; i < 64; i++) print "[[function]]\nname = \"function-" i "\"\nlayer = \"layer-" i "\""
}
