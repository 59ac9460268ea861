# Writes, from the source of crate abi, the functions that C calls, as LLVM text: each takes a slice as a pointer and a
# length, puts the two together, and calls the service of the same name.

function parameters(head) {
    sub(/^[^(]*\(/, "", head)
    sub(/,? *\).*/, "", head)
    return head
}

function pair(i) {
    return "  store ptr %p" i ", ptr %s" i ", align 8\n" \
        "  %l" i " = getelementptr i8, ptr %s" i ", i64 8\n" \
        "  store i64 %n" i ", ptr %l" i ", align 8\n"
}

function define(name, count, types,    i, taken, given, rooms, pairs) {
    for (i = 1; i <= count; i++) {
        if (types[i] ~ /: *&/) {
            taken = taken ", ptr %p" i ", i64 %n" i
            given = given ", ptr %s" i
            rooms = rooms "  %s" i " = alloca [16 x i8], align 8\n"
            pairs = pairs pair(i)
        } else {
            taken = taken ", i64 %p" i
            given = given ", i64 %p" i
        }
    }
    printf "define i32 @%s(%s) #0 {\n%s%s", name, substr(taken, 3), rooms, pairs
    printf "  %%r = call i32 @\"abi::%s\"(%s)\n  ret i32 %%r\n}\n\n", name, substr(given, 3)
}

/extern "C" fn/ { reading = 1; head = "" }
reading { head = head $0 }
reading && /-> u32/ {
    reading = 0
    sub(/.*extern "C" fn /, "", head)
    name = head
    sub(/\(.*/, "", name)
    define(name, split(parameters(head), types, /, */), types)
}
