# The public functions of a source file in Rattle without its comments, one to a line: the function, behind its type or behind `by`;
# 'requires' where it has a precondition, or '-'; and for each `ensures` the record that it cites, or '-' where it is not one record alone.
# What is `pub(crate)` is not public. A public trait's functions are public, and so is what a type has of a trait of the library, whose
# contract is the ghost member that says what is given. What a type has of a trait of our own is told where its contract cites a record.

# the place of the brace that closes the one at i, or 0
function closed(s, i,    depth, c) {
    for (depth = 0; i <= length(s); i++) {
        c = substr(s, i, 1)
        if (c == "{") depth++
        if (c == "}" && --depth == 0) return i
    }
    return 0
}

# the record that a clause cites; s is the clause behind its brace
function cited(s,    name) {
    if (index(s, "⌜")) s = substr(s, index(s, "⌜") + length("⌜"), index(s, "⌝") - index(s, "⌜") - length("⌜"))
    sub(/^ *λ [a-z ]*[.]/, "", s)
    while (gsub(/\([^()]*\)/, "", s)) { }
    name = s
    sub(/^ */, "", name)
    sub(/ .*/, "", name)
    return name ~ /^[A-Z][A-Za-z0-9]*$/ && s !~ /→|×|⊎|≡|≢|≤|</ ? name : "-"
}

# whether the text of a function goes as far as its body; sets needs and said by the clauses before it
function whole(s,    i, c, depth, from, clause, end) {
    needs = "-"
    said = ""
    from = 1
    for (i = 1; i <= length(s); i++) {
        c = substr(s, i, 1)
        if (c == "(" || c == "[") depth++
        if (c == ")" || c == "]") depth--
        if (c == ";" && depth == 0) return 1
        if (c != "{" || depth > 0) continue
        clause = substr(s, from, i - from)
        if (clause !~ /(requires|ensures)[*]?( +[a-z_]+)? *$/) return 1
        if (!(end = closed(s, i))) return 0
        if (clause ~ /requires[*]?( +[a-z_]+)? *$/) needs = "requires"
        else said = said " " cited(substr(s, i + 1, end - i - 1))
        i = end
        from = end + 1
    }
    return 0
}

/^impl / || /^pub trait / {
    type = / for / ? $0 : $2
    sub(/^.* for /, "", type)
    sub(/[^A-Za-z0-9_].*/, "", type)
    if (/^pub trait /) {
        type = $3
        sub(/[^A-Za-z0-9_].*/, "", type)
    }
    shown = /^pub trait /
    ours = / for /
    given = ""
}
/^}/ { type = shown = ours = given = "" }
type != "" && /^    ghost [a-z_]*_gives = [{]/ {
    given = $0
    sub(/^[^{]*[{]/, "", given)
    sub(/[}];? *$/, "", given)
}
/^ *pub (extern "C" )?fn / || (shown && /^    fn /) || (ours && /^    fn /) {
    name = $0
    sub(/.*fn /, "", name)
    sub(/[^A-Za-z0-9_].*/, "", name)
    if (given != "") print type "::" name " - " cited(given)
    head = ""
    open = given == ""
}
open {
    head = head $0 " "
    if (whole(head)) {
        if (!ours || said ~ /[A-Z]/) print (type != "" ? type : by) "::" name " " needs said
        open = 0
    }
}
