"""What each exported function takes of a panel: code, read-only data, stack. And the stack that the table's two offers take."""
import ctypes

import bounds
import calls
import harness

# what is linked together in a panel that only reads, or only writes, replies
GROUPS = {
    "both writers": ["lift_write_hex", "lift_write_words"],
    "plain reader and writers": ["lift_read_plain", "lift_write_hex", "lift_write_words"],
    "both readers": ["lift_read_plain", "lift_read_reply"],
}
# what lift_md5 is to take at most, as GNU ld lays it out: the 64 constants and little else, and 0.75 of the 3,699 and 608
# bytes before the request
MD5_DATA, MD5_ALL = 288, 3230
# the two offers, which C can't call: their callers in crate `painted`, each of which has a table
TURNS = {"Offer": "painted_offer", "Offer of a renewal": "painted_offer_renewal"}
# where a linker puts code, what is only read, and what is written
KINDS = {"code": [".text"], "read-only": [".rodata"], "variables": [".data", ".bss"]}


def symbols(library, kind):
    """The archive's symbols of one kind: T are exported, U are wanted from elsewhere."""
    lines = (line.split() for line in harness.run(["nm", library]).splitlines())
    return [words[-1] for words in lines if len(words) > 1 and words[-2] == kind]


def section_bytes(program):
    """Bytes by kind of a linked program, from `size -A`."""
    lines = (line.split() for line in harness.run(["size", "-A", harness.linked(program)]).splitlines())
    sizes = {words[0]: int(words[1]) for words in lines
             if len(words) == 3 and words[1].isdigit()}
    return {kind: sum(sizes.get(section, 0) for section in sections)
            for kind, sections in KINDS.items()}


def linked(library, names):
    """Bytes of a program that does nothing, with these functions linked in."""
    kept = [f"-Wl,--undefined={name}" for name in names]  # as if it called them
    return section_bytes(harness.build("empty", ["bench/empty.c"], library,
                                       ["-O2", "-Wl,--gc-sections", *kept]))


def depths(library, painted, flags):
    """Each function's bytes from the top of the stack, as stack.c prints them; and how many answers were wrong."""
    # bound at the start, since binding at the first call takes stack of its own; and a call
    # that ends a function of stack.c stays a call, from as deep as the others
    program = harness.build("stack", ["bench/stack.c", "bench/turns.c", painted], library,
                            ["-O2", "-fno-optimize-sibling-calls", "-Wl,-z,now", *flags])
    found = {name: int(number) for name, number in map(str.split, harness.run([program]).splitlines())}
    return found, found.pop("wrong")


def stacks(library, painted):
    """Each function's stack: as deep as it goes, less as deep as one that does nothing goes."""
    mute = [f"-Wl,--defsym={name}=nothing" for name in [*symbols(library, "T"), *symbols(painted, "T")]]
    (taken, wrong), (before, _) = depths(library, painted, []), depths(library, painted, mute)
    if wrong:
        raise harness.Failed(f"turns.c: {wrong} offers aren't answered as they should be")
    return {name: taken[name] - before[name] for name in taken}


def row(title, sizes, empty, stack):
    code, data = (sizes[kind] - empty[kind] for kind in ("code", "read-only"))
    return f"{title:24} {code:10,} {data:16,} {stack:>10}".rstrip()


def md5_bounds(sizes, empty):
    """What R-3 asks of lift_md5, and whether it is met."""
    code, data = (sizes[kind] - empty[kind] for kind in ("code", "read-only"))
    return (f"lift_md5: {data:,} of read-only data, {bounds.counted(data, MD5_DATA)}; "
            f"{code + data:,} with its code, {bounds.counted(code + data, MD5_ALL)}")


def turn_rows(stack):
    """The two offers: what their callers take, less the table that each has."""
    of_table = ctypes.sizeof(calls.Table)
    rows = [f"{title:24} {'':10} {'':16} {stack[name] - of_table:>10}" for title, name in TURNS.items()]
    return [*rows, "The offers are for callers in Rattle: the stack is that of one that has a table of 32 accounts, hands it over\n"
                   f"and puts what comes back in its place, less the {of_table:,} bytes of its table."]


def table(library, painted):
    exported = symbols(library, "T")
    empty, stack = linked(library, []), stacks(library, painted)
    everything = linked(library, exported)
    print("Bytes of each function in a linked program, unused sections dropped, and of the stack"
          "\nit takes below its return address at most, over the inputs of stack.c.")
    print(f"{'':24} {'code':>10} {'read-only data':>16} {'stack':>10}")
    print("\n".join(row(name, linked(library, [name]), empty, stack.get(name, "not run")) for name in exported))
    print("\n".join(row(title, linked(library, names), empty, "") for title, names in GROUPS.items()))
    print(row("all of them", everything, empty, ""))
    print("\n".join(turn_rows(stack)))
    print(md5_bounds(linked(library, ["lift_md5"]), empty))
    print(f"Variables: {everything['variables'] - empty['variables']} bytes. "
          f"Called and not counted: {', '.join(symbols(library, 'U')) or 'nothing'}.")
