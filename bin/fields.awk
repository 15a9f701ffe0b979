# A book's bytes, as `od -An -v -tu1` prints them, in words for people. Thin, unproved and no part of any promise: nothing rests on it. Whether the
# book is refused, by which rule and where is not judged here: `verdict` is what the proved program printed, a sheet or `bad NUMBER PLACE`.
# Prints each field with its place, name and value, the fault marked; or, with words=1, what the fault means and nothing else.

BEGIN {
    # The forms of a book by their first byte, which an old book does not have: the fields of a row and of a policy, each with its bytes.
    row["old"] = "staff:4 holdings:4"
    row[200] = row[201] = "staff:4 person:4 holdings:4"
    policy["old"] = policy[200] = "task:4 s:1 d:1 t:1"
    policy[201] = policy[200] " edition:1"

    # What each rule speaks of, and what it wants.
    rule(2, "task", "it has to ask for a permission")
    rule(3, "s", "at most 64 may be away")
    rule(4, "d", "there have to be 1 to 8 crews")
    rule(5, "t", "the size of a crew has to be 1 to 64")
    rule(11, "", "the book ends before this is whole")
    rule(12, "permissions", "it has to be 1 to 32")
    rule(13, "code", "it has to be above the code before it, BEFORE")
    rule(14, "rows", "it has to be at most 64")
    rule(15, "staff", "it has to be above the staff number before it, BEFORE")
    rule(16, "holdings", "the listed permissions go up to ALLOWED")
    rule(17, "policies", "it has to be at most 32")
    rule(18, "task", "the listed permissions go up to ALLOWED")
    rule(19, "more", "the book has to end here")
    rule(25, "edition", "it has to be 1 or 2")

    called["permissions"] = "the number of permissions"
    called["rows"] = "the number of rows"
    called["policies"] = "the number of policies"
    called["staff"] = "the staff number"
    called["person"] = "the person number"
    called["holdings"] = "the holdings"
    called["task"] = "the task"
    called["edition"] = "the edition"

    remark["s"] = "may be away"
    remark["d"] = "crews"
    remark["t"] = "to a crew"
    remark["edition"] = "of the rule"
}

{ for (i = 1; i <= NF; i++) byte[size++] = $i }

END {
    split(verdict, part, " ")
    refused = part[1] == "bad"
    number = part[2]
    fault = part[3] + 0
    at = fields = listed = 0
    walk()
    if (!words) show()
    else if (refused) print number " at byte " fault ": " meaning(concerned())
}

function rule(n, kind, want) { speaks[n] = kind; wanted[n] = want }

function walk(    form) {
    form = "old"
    if (size > 0 && byte[0] in row) { form = byte[0]; take("form", 1) }
    if (section("permissions", 1, 32, "", "code:2") && section("rows", 0, 64, "row", row[form]) && section("policies", 0, 32, "policy", policy[form]))
        pass("more")
}

# A count and its entries. Says whether the book can be read on: not past its end, nor past a count that is out of range.
function section(name, least, most, entry, layout,    count, i) {
    if (!take(name, 1)) return 0
    count = value[fields - 1]
    if (count < least || count > most) { pass("rest"); return 0 }
    for (i = 0; i < count; i++) if (!take_entry(entry, i, layout)) return 0
    return 1
}

function take_entry(entry, i, layout,    list, pair, n, f, k, owner) {
    n = split(layout, list, " ")
    owner = entry == "" ? "" : entry " " i
    for (f = 1; f <= n; f++) {
        split(list[f], pair, ":")
        k = fields
        if (f == 1) head[k] = owner
        of[k] = owner
        if (!take(pair[1], pair[2])) return 0
        if (pair[1] == "code") code[listed++] = shown[k]
        if (pair[1] == "staff") owner = owner " (staff " shown[k] ")"
    }
    return 1
}

# The next field, as far as the book has it. Says whether it is whole.
function take(what, width,    k) {
    k = fields++
    kind[k] = name[k] = what
    if (what == "code") name[k] = "code " listed
    place[k] = at
    bytes[k] = width
    have[k] = size - at < width ? size - at : width
    if (have[k] < width) {
        shown[k] = "-"
        note[k] = have[k] == 0 ? "missing" : have[k] " of " width " bytes: " hex(at, have[k])
        return 0
    }
    value[k] = little_endian(at, width)
    before[k] = last[what]
    shown[k] = last[what] = sprintf("%.0f", value[k])
    if (what in remark) note[k] = remark[what]
    if (what == "holdings" || what == "task") note[k] = codes_in(value[k])
    at += width
    return 1
}

# Bytes that no count speaks of, if there are any.
function pass(what,    k) {
    if (at == size) return
    k = fields++
    kind[k] = name[k] = what
    place[k] = at
    shown[k] = "-"
    have[k] = size - at
    note[k] = how_many(have[k]) ": " hex(at, have[k] < 8 ? have[k] : 8) (have[k] > 8 ? " .." : "")
}

function little_endian(from, width,    i, sum) {
    for (i = width - 1; i >= 0; i--) sum = sum * 256 + byte[from + i]
    return sum
}

function hex(from, n,    i, text) {
    for (i = 0; i < n; i++) text = text (i > 0 ? " " : "") sprintf("%02x", byte[from + i])
    return text
}

# At most `limit` bytes are looked at: behind so many there may be more.
function how_many(n) { return (size < limit ? "" : "at least ") n (n == 1 ? " byte" : " bytes") }

# The codes of a mask's permissions; bits past the listed ones are counted.
function codes_in(mask,    i, text, past) {
    for (i = 0; mask > 0; i++) {
        if (mask % 2 == 1 && i < listed) text = text (text == "" ? "" : ", ") code[i]
        if (mask % 2 == 1 && i >= listed) past++
        mask = int(mask / 2)
    }
    if (past > 0) text = text (text == "" ? "" : ", ") past " not listed"
    return text == "" ? "none" : text
}

# The field that the verdict speaks of: for 11 the last that there is, else the first from its place on that its rule is about.
function concerned(    k) {
    if (number == 11) return fields - 1
    for (k = 0; k < fields && (place[k] < fault || kind[k] != speaks[number]); k++) { }
    return k
}

# What the rule wants of that field, for one who sees it.
function want(k,    text) {
    if (!(number in wanted) || k == fields) return "the book breaks this rule"
    text = wanted[number]
    sub(/BEFORE/, before[k], text)
    sub(/ALLOWED/, sprintf("%.0f", 2 ^ listed - 1), text)
    return text
}

# The same for one who does not.
function meaning(k) {
    if (!(number in wanted) || k == fields) return want(k)
    if (number == 19) return want(k) ", after its policies, but has " how_many(have[k]) " more"
    if (number != 11) return subject(k) (kind[k] == "holdings" ? " are " : " is ") shown[k] ": " want(k)
    if (have[k] == 0) return "the book ends where " subject(k) " should begin"
    return "the book ends within " subject(k) ", after " have[k] " of its " bytes[k] " bytes"
}

function subject(k) { return (kind[k] in called ? called[kind[k]] : name[k]) (of[k] == "" ? "" : " of " of[k]) }

# The fields as a table. The mark stands where the proved program says that the fault is.
function show(    k, line) {
    for (k = 0; k < fields; k++) { widen(1, place[k]); widen(2, head[k]); widen(3, name[k]); widen(4, shown[k]) }
    for (k = 0; k < fields; k++) {
        line = sprintf("%" wide[1] "s", place[k])
        if (wide[2] > 0) line = line "  " sprintf("%-" wide[2] "s", head[k])
        line = line "  " sprintf("%-" wide[3] "s", name[k]) "  " sprintf("%" wide[4] "s", shown[k])
        if (note[k] != "") line = line "  (" note[k] ")"
        if (refused && place[k] == fault) line = line "  <- bad " number ": " want(concerned())
        print line
    }
}

function widen(column, text) { if (length(text) > wide[column]) wide[column] = length(text) }
