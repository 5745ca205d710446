# Writes the files of bench/make-folder, which calls this with `family`, `size`, `folder` and `texts_file`, and with LC_ALL=C, so
# that a character is a byte. The input has the bytes of examples/hello, a number in each line.

# ---- Bytes, of big-endian numbers.

function u1(n) { return byte[n] }
function u2(n) { return byte[int(n / 256)] byte[n % 256] }
function u4(n) { return u2(int(n / 65536)) u2(n % 65536) }

# A text so many times over.
function times(text, n,    all) {
    all = ""
    while (n > 0) {
        if (n % 2) all = all text
        text = text text
        n = int(n / 2)
    }
    return all
}

# A long run of bytes is put together from parts: `put` adds some, `taken` gives all and begins anew.
function put(bytes) {
    part = part bytes
    if (length(part) > 4096) {
        whole = whole part
        part = ""
    }
}

function put_length() { return length(whole) + length(part) }

function taken(    all) {
    all = whole part
    whole = part = ""
    return all
}

# ---- A class file. It is begun, gets entries, interfaces, fields and methods, and is written.

function begin(name, parent, flags) {
    split("", pool)
    split("", known)
    split("", interfaces)
    split("", fields)
    split("", methods)
    entries = interface_count = field_count = method_count = 0
    next_index = 1
    own_name = name
    own_flags = flags
    own_class = class(name)
    own_parent = class(parent)
}

# Adds an entry, and gives its index.
function add(bytes) {
    pool[++entries] = bytes
    return next_index++
}

# The index of an entry, which is added where it isn't there.
function once(bytes) {
    if (!(bytes in known)) known[bytes] = add(bytes)
    return known[bytes]
}

function utf8(text) { return once(u1(1) u2(length(text)) text) }
function class(name) { return once(u1(7) u2(utf8(name))) }
function string(text) { return once(u1(8) u2(utf8(text))) }
function pair(name, kind) { return once(u1(12) u2(utf8(name)) u2(utf8(kind))) }
function field_ref(of, name, kind) { return once(u1(9) u2(class(of)) u2(pair(name, kind))) }
function method_ref(of, name, kind) { return once(u1(10) u2(class(of)) u2(pair(name, kind))) }
function interface_ref(of, name, kind) { return once(u1(11) u2(class(of)) u2(pair(name, kind))) }

function implement(name) { interfaces[++interface_count] = u2(class(name)) }
function field(flags, name, kind) { fields[++field_count] = u2(flags) u2(utf8(name)) u2(utf8(kind)) u2(0) }
function method(flags, name, kind) { methods[++method_count] = u2(flags) u2(utf8(name)) u2(utf8(kind)) u2(0) }

# A method with a code, and with so many catch entries, each of eight bytes.
function coded(flags, name, kind, stack, locals, code, count, catches) {
    methods[++method_count] = u2(flags) u2(utf8(name)) u2(utf8(kind)) u2(1) \
        u2(utf8("Code")) u4(12 + length(code) + length(catches)) u2(stack) u2(locals) \
        u4(length(code)) code u2(count) catches u2(0)
}

# A public static one.
function method_with(name, kind, stack, locals, code, count, catches) {
    coded(9, name, kind, stack, locals, code, count, catches)
}

function print_all(list, count,    i) {
    for (i = 1; i <= count; i++) print list[i] > path
}

# Writes the class file, which has no package.
function finish() {
    path = folder "/" own_name ".class"
    print u4(3405691582) u4(48) u2(next_index) > path
    print_all(pool, entries)
    print u2(own_flags) u2(own_class) u2(own_parent) u2(interface_count) > path
    print_all(interfaces, interface_count)
    print u2(field_count) > path
    print_all(fields, field_count)
    print u2(method_count) > path
    print_all(methods, method_count)
    print u2(0) > path
    close(path)
}

# ---- Small classes, and instructions of any local.

function begin_class(name) { begin(name, "java/lang/Object", 33) }
function begin_abstract(name) { begin(name, "java/lang/Object", 1057) }
function begin_interface(name) { begin(name, "java/lang/Object", 1537) }

# An interface without members, below one other or two.
function add_interface(name, above, other) {
    begin_interface(name)
    if (above) implement(above)
    if (other) implement(other)
    finish()
}

# So many classes C0, C1 .., each below the one before.
function add_chain(n,    i) {
    for (i = 0; i < n; i++) {
        begin("C" i, i ? "C" (i - 1) : "java/lang/Object", 33)
        finish()
    }
}

function of_local(op, n) { return n < 256 ? u1(op) u1(n) : u1(196) u1(op) u2(n) }
function put_move(from, to) { put(of_local(25, from) of_local(58, to)) }

# goto_w to a place of the code that is being put together.
function put_goto(to) { put(u1(200) u4(4294967296 + to - put_length())) }

# ---- Classes.

function diamonds(n,    i) {
    add_interface("I0")
    for (i = 1; i <= n; i++) {
        add_interface("A" i, "I" (i - 1))
        add_interface("B" i, "I" (i - 1))
        add_interface("I" i, "A" i, "B" i)
    }
    begin_class("Z")
    implement("I" n)
    finish()
}

function lookups(n,    i, j) {
    begin_interface("I1")
    for (i = 0; i < 250; i++) field(25, "f" i, "I")
    finish()
    for (i = 2; i <= n; i++) add_interface("I" i, "I" (i - 1))
    for (j = 0; j < 240; j++) {
        begin_class("B" j)
        implement("I" n)
        finish()
    }
    begin_class("Z")
    for (j = 0; j < 240; j++) for (i = 0; i < 250; i++) field_ref("B" j, "f" i, "I")
    finish()
}

# ---- Classes of many members or entries. Where there are more than a class may have, more classes have them.

# How many of so many the next class has.
function some(left, most) { return left < most ? left : most }

function crowd_of_fields(n,    i) {
    for (; n > 0; n -= 60000) {
        begin_class("F" n)
        for (i = 0; i < some(n, 60000); i++) field(1, i, "I")
        finish()
    }
}

function crowd_of_methods(n,    i) {
    for (; n > 0; n -= 65000) {
        begin_abstract("M" n)
        for (i = 0; i < some(n, 65000); i++) method(1025, "m" i % 255, "(" times("[", int(i / 255) + 1) "I)V")
        finish()
    }
}

function texts(n,    i) {
    for (; n > 0; n -= 65000) {
        begin_class("T" n)
        for (i = 0; i < some(n, 65000); i++) add(u1(1) u2(0))
        finish()
    }
}

function code(n,    i) {
    for (; n > 0; n -= 15) {
        begin_class("N" n)
        for (i = 0; i < some(n, 15); i++) method_with("m" i, "()V", 0, 0, times(u1(0), 65534) u1(177), 0, "")
        finish()
    }
}

function overrides(n,    i) {
    add_chain(n)
    begin("M", "C" (n - 1), 1057)
    for (i = 0; i < 65000; i++) method(1025, "m" i % 255, "(" times("[", int(i / 255) + 1) "I)V")
    finish()
}

# No two methods of the chain have one name.
function members_of_chain(n, flags,    i, j) {
    for (i = 0; i < n; i++) {
        begin("C" i, i ? "C" (i - 1) : "java/lang/Object", 33)
        for (j = 0; j < 60; j++) coded(flags, "m" (60 * i + j), "()V", 0, 1, u1(177), 0, "")
        finish()
    }
}

# ---- Offers. A class has a name of two letters, and a domain one letter.

function letter(i) { return substr("abcdefghijklmnopqrstuvwxyzABCDEFGHIJKLMNOPQRSTUVWXYZ0123456789", i % 62 + 1, 1) }
function letters(i) { return letter(i) letter(int(i / 62)) }

# Offers so many classes, which all refer to one another, by so many lines of 11 bytes: all classes to one domain after another.
function offers(classes, lines,    i, j) {
    for (i = 0; i < classes; i++) {
        begin_class(letters(i))
        for (j = 0; j < classes; j++) class(letters(j))
        finish()
    }
    path = folder "/resolver.txt"
    for (i = 0; i < lines; i++) print "share " letters(i % classes) " " letter(int(i / classes)) "\n" > path
    close(path)
}

# ---- Names and texts.

function long_name(n,    i, name, kind) {
    name = times("n", 65535)
    begin_abstract("L")
    for (i = 0; i < n; i++) {
        kind = "(" times("[", i % 255 + 1) substr("BCIJSZ", int(i / 255) + 1, 1) ")V"
        method(1025, name, kind)
        method_ref("L", name, kind)
    }
    finish()
}

function collisions(n,    line) {
    begin_class("T")
    while (n > 0 && (getline line < texts_file) > 0) {
        if (line !~ /^#/) {
            string(line)
            n--
        }
    }
    finish()
}

# NameAndType entries that nothing uses, since a member's descriptor has no room for so many parameters.
function mentions(n,    i) {
    begin_class("a")
    for (i = 1; i <= n; i++) pair("a", "(" times("[", i) times("La;", 21800) ")V")
    finish()
}

# getstatic, ldc and invokevirtual for each print.
function literals(n,    print_it) {
    begin_class("T")
    print_it = u1(18) u1(string(times("t", 65535)))
    print_it = u1(178) u2(field_ref("java/lang/System", "out", "Ljava/io/PrintStream;")) print_it
    print_it = print_it u1(182) u2(method_ref("java/io/PrintStream", "println", "(Ljava/lang/String;)V"))
    method_with("main", "([Ljava/lang/String;)V", 2, 1, times(print_it, n) u1(177), 0, "")
    finish()
}

# ---- Code.

# aload_0, nop over and over, athrow, with as many locals as such a code may have. Each entry covers all, and no two go on at the
# same place, but for the first and the last.
function handlers(n,    i) {
    begin_class("H")
    for (i = 0; i < n; i++) put(u2(0) u2(n) u2(i % (n - 1) + 1) u2(0))
    method_with("m", "(Ljava/lang/Throwable;)V", 1, 62, u1(42) times(u1(0), n - 2) u1(191), n, taken())
    finish()
}

# The locals begin with classes of a chain of 200, lower ones first.
function rising(n,    params, i, kind, top) {
    add_chain(200)
    params = n < 200 ? n : 200
    kind = ""
    for (i = 0; i < params; i++) kind = kind "LC" (199 - i * int(200 / params)) ";"
    begin_class("R")
    for (i = n - 1; i > 0; i--) put_move(int(i * params / n), i)
    top = put_length()
    for (i = 1; i < n; i++) put_move(i, i - 1)
    put_goto(top)
    method_with("m", "(" kind ")V", 1, n, taken(), 0, "")
    finish()
}

# Each local is stored into the one before it, and an element of the first into the last: aload, iconst_0, aaload, astore.
function ring(n,    i, top) {
    begin_class("R")
    for (i = 1; i < n; i++) put_move(0, i)
    top = put_length()
    put(of_local(25, 0))
    for (i = 1; i < n; i++) put_move(i, i - 1)
    put(u1(3) u1(50) of_local(58, n - 1))
    put_goto(top)
    method_with("m", "(" times("[", 255) "Ljava/lang/Object;)V", 3, n, taken(), 0, "")
    finish()
}

function many_locals(n,    i) {
    begin_class("S")
    for (i = 0; i < n; i++) method_with("m" i, "()V", 0, 65535, times(u1(0), 63) u1(177), 0, "")
    finish()
}

# iconst_0, istore over and over, nop, return.
function stores(n,    i, body) {
    begin_class("S")
    for (i = 0; i < 31; i++) put(u1(3) of_local(54, 2000 * i + 1000))
    body = taken() u1(0) u1(177)
    for (i = 0; i < n; i++) method_with("m" i, "()V", 1, 65535, body, 0, "")
    finish()
}

# iconst_0, tableswitch with its gap of two bytes, return.
function cases(n,    after) {
    begin_class("S")
    after = u4(15 + 4 * n)
    method_with("m", "()V", 1, 65535, u1(3) u1(170) u2(0) after u4(0) u4(n - 1) times(after, n) u1(177), 0, "")
    finish()
}

# nop ten times, return; the handler: pop, return.
function catches(n) {
    begin_class("S")
    method_with("m", "()V", 1, 65535, times(u1(0), 10) u1(177) u1(87) u1(177), n, times(u2(0) u2(10) u2(11) u2(0), n))
    finish()
}

# ---- Classes that are run, each by a main.

# aload_0, a constant, aaload, invokestatic: the number that a word of the start says, up to the sixth.
function number(word) {
    return u1(42) u1(3 + word) u1(50) u1(184) u2(method_ref("java/lang/Integer", "parseInt", "(Ljava/lang/String;)I"))
}

# new, dup, invokespecial: an object of a class, made by the constructor without arguments that it has or inherits.
function made(name) { return u1(187) u2(class(name)) u1(89) u1(183) u2(method_ref(name, "<init>", "()V")) }

# A main that does a body as often as its first word says, and then prints what local 3 has. Local 1 says how often, local 2 counts.
# Both of these, and local 3 with a 0, are there before what comes first. What the body throws of a class that is named between 0
# and `to` goes on at `handler`, where these are places in the body.
function add_main(first, body, stack, locals, to, handler, caught,    all, at) {
    all = number(0) u1(60) u1(3) u1(61) u1(3) u1(62) first
    at = length(all) + 5
    # iload_2, iload_1, if_icmpge; the body; iinc, goto; getstatic, iload_3, invokevirtual, return.
    all = all u1(28) u1(27) u1(162) u2(length(body) + 9) body u1(132) u1(2) u1(1) u1(167) u2(65536 - length(body) - 8)
    all = all u1(178) u2(field_ref("java/lang/System", "out", "Ljava/io/PrintStream;")) u1(29)
    all = all u1(182) u2(method_ref("java/io/PrintStream", "println", "(I)V")) u1(177)
    method_with("main", "([Ljava/lang/String;)V", stack, locals, all, caught ? 1 : 0, \
        caught ? u2(at) u2(at + to) u2(at + handler) u2(class(caught)) : "")
}

function count_one() { return u1(132) u1(3) u1(1) }

# Of ten pairs so many are new and pop, and the others aconst_null and pop. Before them as many arrays are made as the second word
# says.
function news(n,    first) {
    begin_class("News")
    field(1, "left", "I")
    field(1, "right", "I")
    # iconst_0, multianewarray of two dimensions, astore
    first = number(1) u1(3) u1(197) u2(class("[[I")) u1(2) u1(58) u1(4)
    add_main(first, times(u1(187) u2(own_class) u1(87), n) times(u1(1) u1(87), 10 - n) count_one(), 3, 5)
    finish()
}

# The first class of the chain has the method and main.
function calls(n,    low) {
    add_chain(n)
    low = "C" (n - 1)
    begin_class("C0")
    coded(1, "same", "(I)I", 1, 2, u1(27) u1(172), 0, "")
    # astore; aload, iload_2, invokevirtual, istore_3
    add_main(made(low) u1(58) u1(4), u1(25) u1(4) u1(28) u1(182) u2(method_ref(low, "same", "(I)I")) u1(62), 3, 5)
    finish()
}

# The class below the diamonds has main. Its object is called by the first interface, asked whether it is of one that it doesn't
# implement, and cast to the first.
function asks(n) {
    diamonds(n)
    begin_interface("I0")
    method(1025, "same", "(I)I")
    finish()
    add_interface("J")
    begin_class("Z")
    implement("I" n)
    coded(1, "same", "(I)I", 1, 2, u1(27) u1(172), 0, "")
    # astore; aload, iload_2, invokeinterface, istore_3; aload, instanceof, pop; aload, checkcast, pop
    add_main(made("Z") u1(58) u1(4), \
        u1(25) u1(4) u1(28) u1(185) u2(interface_ref("I0", "same", "(I)I")) u1(2) u1(0) u1(62) \
        u1(25) u1(4) u1(193) u2(class("J")) u1(87) u1(25) u1(4) u1(192) u2(class("I0")) u1(87), 3, 5)
    finish()
}

# Each call of a method calls it once more, as often as the second word says, and the last one throws. All is covered by as many
# catch entries, none of which catches it. main catches it, and counts. The method calls from one place, or from two in turn.
function unwinding(n, places,    down, again, all, ends) {
    begin_class("U")
    down = u2(method_ref("U", "down", "(ILjava/lang/Throwable;)V"))
    # iload_0, ifne, aload_1, athrow; iload_0, iconst_1, iand, ifne; then iload_0, iconst_1, isub, aload_1, invokestatic, return; the
    # handler: pop, return.
    again = u1(26) u1(4) u1(100) u1(43) u1(184) down u1(177)
    all = u1(26) u1(154) u2(5) u1(43) u1(191) (places == 2 ? u1(26) u1(4) u1(126) u1(154) u2(11) again again : again)
    ends = length(all)
    method_with("down", "(ILjava/lang/Throwable;)V", 3, 2, all u1(87) u1(177), n, \
        times(u2(0) u2(ends) u2(ends) u2(class("java/lang/ArithmeticException")), n))
    # astore, istore; iload, aload, invokestatic, goto; the handler: pop, iinc.
    add_main(made("java/lang/IllegalStateException") u1(58) u1(4) number(1) u1(54) u1(5), \
        u1(21) u1(5) u1(25) u1(4) u1(184) down u1(167) u2(7) u1(87) count_one(), \
        3, 6, 7, 10, "java/lang/IllegalStateException")
    finish()
}

# The next so many of the texts as the constants of a method that adds up their lengths: ldc_w, invokevirtual, iadd.
function lengths(name, from, n,    i, text) {
    for (i = from; i < from + n; i++) {
        text = i <= 10 ? texts_of_pool[i] : sprintf("text%05d", i)
        put(u1(19) u2(string(text)) u1(182) u2(method_ref("java/lang/String", "length", "()I")) u1(96))
    }
    method_with(name, "()I", 2, 0, u1(3) taken() u1(172), 0, "")
}

# A pool has room for 32,764 such texts because what it names itself are ten of them.
function constants(n,    i, name, body) {
    split("T java/lang/Object Code a b c d ()I java/lang/String length", texts_of_pool, " ")
    begin_class("T")
    for (i = 0; i < 4; i++) lengths(substr("abcd", i + 1, 1), i * n / 4 + 1, n / 4)
    finish()
    begin_class("Main")
    body = ""
    for (i = 0; i < 4; i++) body = body u1(184) u2(method_ref("T", substr("abcd", i + 1, 1), "()I")) (i ? u1(96) : "")
    add_main("", body u1(62), 2, 4)
    finish()
}

# iconst_1 for each dimension, multianewarray, pop.
function dimensions(n) {
    begin_class("D")
    add_main("", times(u1(4), n) u1(197) u2(class(times("[", n) "I")) u1(n) u1(87) count_one(), n, 4)
    finish()
}

# ---- Damaged class files.

# The bytes of the input, as numbers.
function read_bytes(bytes,    count) {
    while ((getline line) > 0) bytes[count++] = line + 0
    return count
}

# Another number where a byte's bits are turned as those of `by` say.
function turned(n, by,    bit, out) {
    out = 0
    for (bit = 1; bit < 256; bit *= 2) if (int(n / bit) % 2 != int(by / bit) % 2) out += bit
    return out
}

function cuts(step,    bytes, count, long, i, text) {
    count = read_bytes(bytes)
    text = ""
    for (long = 0; long < count; long++) {
        path = folder "/c" long "/Hello.class"
        if (long % step == 0) {
            print text > path
            close(path)
        }
        text = text u1(bytes[long])
    }
}

function flips(by,    bytes, count, at, i) {
    count = read_bytes(bytes)
    for (at = 0; at < count; at++) {
        path = folder "/f" at "/Hello.class"
        for (i = 0; i < count; i++) print u1(i == at ? turned(bytes[i], by) : bytes[i]) > path
        close(path)
    }
}

BEGIN {
    ORS = ""
    for (i = 0; i < 256; i++) byte[i] = sprintf("%c", i)
    size += 0
    if (family == "diamonds") diamonds(size)
    else if (family == "lookups") lookups(size)
    else if (family == "chain") add_chain(size)
    else if (family == "fields") crowd_of_fields(size)
    else if (family == "methods") crowd_of_methods(size)
    else if (family == "overrides") overrides(size)
    else if (family == "inherited") members_of_chain(size, 1)
    else if (family == "finals") members_of_chain(size, 17)
    else if (family == "offers") offers(50, size)
    else if (family == "shares") offers(size, 95325)
    else if (family == "long-name") long_name(size)
    else if (family == "texts") texts(size)
    else if (family == "collisions") collisions(size)
    else if (family == "mentions") mentions(size)
    else if (family == "literals") literals(size)
    else if (family == "code") code(size)
    else if (family == "handlers") handlers(size)
    else if (family == "rising") rising(size)
    else if (family == "ring") ring(size)
    else if (family == "locals") many_locals(size)
    else if (family == "stores") stores(size)
    else if (family == "cases") cases(size)
    else if (family == "catches") catches(size)
    else if (family == "news") news(size)
    else if (family == "calls") calls(size)
    else if (family == "asks") asks(size)
    else if (family == "unwinding") unwinding(size, 1)
    else if (family == "zigzag") unwinding(size, 2)
    else if (family == "constants") constants(size)
    else if (family == "dimensions") dimensions(size)
    else if (family == "cuts") cuts(size)
    else if (family == "flips") flips(size)
    else {
        print "make-folder: no such family: " family "\n" > "/dev/stderr"
        exit 1
    }
}
