# Which slices the loops of some compiled functions walk over. Reads what tests/mir prints, a bracket or word to a line. For each function with a loop it prints
# `loop FUNCTION` and the numbers of the parameters over whose slices the loop walks; `twice FUNCTION` where there are two loops, `calls FUNCTION` for one that calls
# itself, alone or through others, and `form WORD` for a form that it does not know. A parameter is a slice, or a value that holds some (or is lent such a value).
#
# A loop walks over a slice where some local leads it: each way through a turn that comes to the next one sets that local anew, from what it was, and uses an element
# of the slice at a place that was worked out from it: reads it for something, writes it, or hands the slice on to a function that somewhere does, by what it is handed.
# An iterator over the slice leads it too, where each such way asks it for its next, and an element that it gave is used; nothing else may be done with it in the turn.
# A struct counts as one local. Not seen is that a value stays what it was (`s[i - i]`, a leader that is put back from a copy), and whether what is read changes
# anything.
#
# A call of a function of the kit that has a loop counts as a loop of the caller. It has to be one that is known here, by which of its parameters it walks over: slices,
# or an iterator over some. Formatting is Debug's and Display's alone, and its loops are not looked at.
BEGIN {
    over_slices["\"check::same\""] = "1 2"
    over_slices["\"RefSlicePartialEq::eq\""] = "1 2"
    over_slices["\"slice+T::copy_from_slice\""] = "1 2"
    over_slices["\"slice+T::fill\""] = "1"
    over_iterator["\"Iterator::count\""] = over_iterator["\"Iterator::any\""] = over_iterator["\"Iterator::all\""] = over_iterator["\"Iterator::position\""] = "1"
    # How they use the slices: read (1), or written, or read and stored (2).
    taking["\"check::same\"", 1, 1] = taking["\"check::same\"", 2, 2] = 1
    taking["\"RefSlicePartialEq::eq\"", 1, 1] = taking["\"RefSlicePartialEq::eq\"", 2, 2] = 1
    taking["\"slice+T::copy_from_slice\"", 1, 1] = taking["\"slice+T::copy_from_slice\"", 2, 2] = 2
    taking["\"slice+T::fill\"", 1, 1] = 2
    # What makes an iterator over a slice, over what another iterator is over, and over what two are over, an element of each a turn.
    iterator["\"slice+T::iter\""] = iterator["\"slice+T::iter_mut\""] = "slice"
    iterator["\"IteratorIntoIterator::into_iter\""] = iterator["\"Iterator::take\""] = iterator["\"Iterator::take_while\""] = "first"
    iterator["\"Iterator::skip\""] = iterator["\"Iterator::enumerate\""] = "first"
    iterator["\"Iterator::zip\""] = "both"
}

# The tree: head[x] is a node's first word, kid[x, 1] .. kid[x, size[x]] its parts; a word by itself is in head alone.
$0 == "(" { stack[++depth] = ++nodes; next }
$0 == ")" {
    x = stack[depth--]
    if (depth) kid[stack[depth], ++size[stack[depth]]] = x
    if (head[x] == "fn-def") defined[head[kid[x, 1]]] = kid[x, 2]
    next
}
{
    if (!(stack[depth] in head)) head[stack[depth]] = $0
    else {
        head[++nodes] = $0
        kid[stack[depth], ++size[stack[depth]]] = nodes
    }
}

# Sets of locals are texts, ` 3 7 `.
function has(set, l) { return index(set, " " l " ") }
function with(set, l) { return has(set, l) ? set : (set == "" ? " " : set) l " " }
function without(set, l) { sub(" " l " ", " ", set); return set }
function common(a, b,  part, k, n, out) {
    n = split(b, part, " ")
    for (k = 1; k <= n; k++) if (has(a, part[k])) out = with(out, part[k])
    return out
}

# A place is a local and the way from it: whether that goes through a reference, and whether it is the length of a slice.
function base(p) { return head[kid[p, 1]] }
function through(p) { return references(p) > 0 }
function references(p,  w, n) {
    for (w = kid[p, 2]; head[w] == "lcons"; w = kid[w, 2]) if (head[kid[w, 1]] == "deref") n++
    return n + 0
}
# Whether a place is in an element, where its local leads into a slice: as many references from it as its type has.
function in_element(p) { return through(p) && references(p) >= depth_of[base(p)] }
function whole(p) { return head[kid[p, 2]] == "lnil" }
function is_length(p,  w) {
    w = kid[p, 2]
    return head[w] == "lcons" && head[kid[w, 1]] == "field" && head[kid[kid[w, 1], 1]] == 1 && slice[base(p)]
}

# The places in a value, as numbered parts of `place`; `lent[k]` where the k-th is only pointed to.
function places(x) { found = 0; places_in(x, 0); return found }
function places_in(x, pointed,  k) {
    if (head[x] == "place") { place[++found] = x; lent[found] = pointed; return }
    for (k = 1; k <= size[x]; k++) places_in(kid[x, k], head[x] == "addrOf")
}
# Whether a value has something of a set in it; and whether it is a way into the slice of which `into` holds the locals.
function any_in(x, set,  k, n) {
    n = places(x)
    for (k = 1; k <= n; k++) if (has(set, base(place[k]))) return 1
    return 0
}
function leads(x, into,  k, n) {
    n = places(x)
    for (k = 1; k <= n; k++) if (has(into, base(place[k])) && !is_length(place[k]) && (lent[k] || !in_element(place[k]))) return 1
    return 0
}
# Whether a value reads an element of the slice, by a way that is in `set`.
function reads_element(x, into, set,  k, n) {
    n = places(x)
    for (k = 1; k <= n; k++) if (!lent[k] && in_element(place[k]) && has(into, base(place[k])) && has(set, base(place[k]))) return 1
    return 0
}

# The locals of a function, and the statements in it, as numbered parts of `statement`.
function locals_of(f,  l, k) {
    split("", slice); split("", lent_out); split("", depth_of); split("", walkable)
    params = head[kid[f, 3]]
    for (l = kid[f, 4]; head[l] == "lcons"; l = kid[l, 2]) {
        k = kid[kid[l, 1], 1]
        locals = total++
        slice[locals] = head[k] == "slice"
        walkable[locals] = head[k] != "plain"
        depth_of[locals] = head[kid[k, 1]] + 0
        lent_out[locals] = head[kid[kid[l, 1], 2]] == "memorySlot"
    }
    total = 0
}
function statements(x,  k) {
    if (head[x] ~ /^(assign|call|if|switch|loop)$/) statement[++many] = x
    if (head[x] ~ /^(assign|call)$/) return
    for (k = 1; k <= size[x]; k++) statements(kid[x, k])
}

# The locals whose values matter: those that decide, are handed on, stored, or answered, and those that such ones are made of.
function matter(  k, n, i, was, x) {
    needed = " 0 "
    do {
        was = needed
        for (k = 1; k <= many; k++) {
            x = statement[k]
            if (head[x] == "assign" && !(through(kid[x, 1]) || has(needed, base(kid[x, 1])))) continue
            if (head[x] == "loop") continue
            n = places(head[x] == "assign" || head[x] == "call" ? kid[x, 2] : kid[x, 1])
            for (i = 1; i <= n; i++) needed = with(needed, base(place[i]))
            if (head[x] == "assign" && through(kid[x, 1])) needed = with(needed, base(kid[x, 1]))
        }
    } while (needed != was)
}

# The locals whose values are stored where a reference leads, and those that such ones are made of.
function stored(  k, n, i, was, x) {
    kept = ""
    do {
        was = kept
        for (k = 1; k <= many; k++) {
            x = statement[k]
            if (head[x] != "assign" || !(through(kid[x, 1]) || has(kept, base(kid[x, 1])))) continue
            n = places(kid[x, 2])
            for (i = 1; i <= n; i++) if (!lent[i]) kept = with(kept, base(place[i]))
        }
    } while (kept != was)
}

function callee(x) { return head[kid[kid[kid[x, 1], 1], 1]] }
function argument(x, n,  a) {
    for (a = kid[x, 2]; n > 1 && head[a] == "lcons"; a = kid[a, 2]) n--
    return kid[a, 1]
}
# Whether a call is one of the kit's functions that loop ("loops"), or that write text ("formats").
function library(x, word) { return head[x] == "call" && head[kid[kid[x, 1], 1]] == "kit" && head[kid[kid[kid[x, 1], 1], 2]] == word }

# What a function does with elements of its parameter j at places worked out from its parameter g: 1 where it reads them for something, 2 where it writes them, or reads them
# and stores what was read, itself or by a function that it calls, of which the same was worked out before.
function takes(j, g,  into, by, was, k, x, p, does) {
    into = " " j " "; by = " " g " "
    do {
        was = into by
        for (k = 1; k <= many; k++) {
            x = statement[k]
            if (head[x] !~ /^(assign|call)$/) continue
            p = kid[x, head[x] == "assign" ? 1 : 3]
            if (through(p)) continue
            if (leads(kid[x, 2], into) && depth_of[base(p)]) into = with(into, base(p))
            if (any_in(kid[x, 2], by)) by = with(by, base(p))
        }
    } while (into by != was)
    for (k = 1; k <= many; k++) {
        x = statement[k]
        if (head[x] == "assign") {
            p = kid[x, 1]
            if (in_element(p) && has(into, base(p)) && has(by, base(p))) return 2
            if (reads_element(kid[x, 2], into, by)) {
                if (through(p) || has(kept, base(p))) return 2
                if (has(needed, base(p))) does = 1
            }
        } else if (head[x] == "call") {
            was = handed(x, into, by)
            if (was == 2) return 2
            if (was && has(needed, base(kid[x, 3]))) does = 1
        }
    }
    return does + 0
}
# The same of a call, at places worked out from what is in `by`.
function handed(x, into, by,  a, b, i, j, most) {
    for (a = kid[x, 2]; head[a] == "lcons"; a = kid[a, 2]) {
        i++; j = 0
        if (leads(kid[a, 1], into))
            for (b = kid[x, 2]; head[b] == "lcons"; b = kid[b, 2]) {
                j++
                if (any_in(kid[b, 1], by) && most < taking[callee(x), i, j]) most = taking[callee(x), i, j]
            }
    }
    return most + 0
}

# A turn. A way to a statement is 0, 1 where it has used the slice, 2 where it has moved the leader, 3 where both; `ways` is a set of ways, with bit[w] in it for w. Each
# function answers the ways that go on after what it walks. `by` are the locals worked out from the leader, `into` those that lead into the slice.
BEGIN { bit[0] = 1; bit[1] = 2; bit[2] = 4; bit[3] = 8 }
function is_in(w, ways) { return int(ways / bit[w]) % 2 }
function joined(a, b,  w, out) {
    for (w = 0; w < 4; w++) if (is_in(w, a) || is_in(w, b)) out += bit[w]
    return out + 0
}
function using(ways,  w, out) {
    for (w = 0; w < 4; w++) if (is_in(w, ways)) out = joined(out, bit[w % 2 ? w : w + 1])
    return out + 0
}
function moving(ways, so,  w, out) {
    for (w = 0; w < 4; w++) if (is_in(w, ways)) out = joined(out, bit[w % 2 + (so ? 2 : 0)])
    return out + 0
}
function walk(x, ways, level,  k, out) {
    for (; head[x] == "seq"; x = kid[x, 2]) {
        ways = walk(kid[x, 1], ways, level)
        if (!ways) return 0
    }
    if (head[x] == "skip") return ways
    if (head[x] == "return") return 0
    if (head[x] == "exit") {
        k = level - head[kid[x, 1]]
        left_by[k] = left[k] ? common(left_by[k], by) : by
        left_into[k] = left[k] ? common(left_into[k], into) : into
        left[k] = joined(left[k], ways)
        return 0
    }
    if (head[x] == "assign") return assigned(kid[x, 1], kid[x, 2], ways)
    if (head[x] == "call") return called(x, ways)
    if (head[x] == "block") {
        left[++level] = 0
        out = walk(kid[x, 1], ways, level)
        if (left[level]) {
            by = out ? common(by, left_by[level]) : left_by[level]
            into = out ? common(into, left_into[level]) : left_into[level]
        }
        return joined(out, left[level])
    }
    if (head[x] == "if" || head[x] == "switch") return branches(x, ways, level)
    strange(head[x])
    return ways
}
# What holds after branches is what holds after each that goes on.
function branches(x, ways, level,  k, n, part, out, on, by0, into0, by1, into1) {
    if (head[x] == "if") { part[++n] = kid[x, 2]; part[++n] = kid[x, 3] }
    else {
        for (k = kid[x, 2]; head[k] == "arm"; k = kid[k, 3]) part[++n] = kid[k, 2]
        if (head[k] == "default") part[++n] = kid[k, 1]
        else if (head[k] != "noDefault") strange(head[k])
    }
    by0 = by; into0 = into
    for (k = 1; k <= n; k++) {
        by = by0; into = into0
        on = walk(part[k], ways, level)
        if (!on) continue
        by1 = out ? common(by1, by) : by
        into1 = out ? common(into1, into) : into
        out = joined(out, on)
    }
    by = by1; into = into1
    return out + 0
}
function plain(name) { gsub(/"/, "", name); return name }
function strange(word) { if (!unknown[word]++) print "form " word }
function becomes(l, strong, worked, led) {
    if (worked && !lent_out[l]) by = with(by, l); else if (strong) by = without(by, l)
    if (led && depth_of[l]) into = with(into, l); else if (strong) into = without(into, l)
    if (l == walked || l == leader && lent_out[l]) anew = 1
}
function assigned(p, value, ways,  l, worked, led) {
    l = base(p)
    worked = any_in(value, by)
    led = leads(value, into)
    if (lends_leader(value) && !(head[value] == "addrOf" && whole(p))) anew = 1
    if (through(p) && !in_element(p)) {
        # A slice of a value that is lent, or its way there, is set.
        if (has(into, l) && any_deep(value)) anew = 1
        return ways
    }
    if (through(p)) return has(into, l) && has(by, l) ? using(ways) : ways
    if (reads_element(value, into, by) && has(needed, l)) ways = using(ways)
    if (l == leader && !itself(l, value)) ways = moving(ways, worked && !with_zero(value))
    becomes(l, whole(p), worked, led)
    return ways
}
# Whether a value has a way to the iterator that leads, or a local that leads into any slice.
function lends_leader(value,  k, n) {
    if (!lent_out[leader]) return 0
    n = places(value)
    for (k = 1; k <= n; k++) if (lent[k] && base(place[k]) == leader || points[base(place[k])] == leader) return 1
    return 0
}
function any_deep(value,  k, n) {
    n = places(value)
    for (k = 1; k <= n; k++) if (depth_of[base(place[k])]) return 1
    return 0
}
function with_zero(value) { return head[value] == "op2" && head[kid[value, 3]] == "int" && head[kid[kid[value, 3], 2]] == 0 }
function itself(l, value) {
    return places(value) == 1 && base(place[1]) == l && whole(place[1]) && (head[value] == "rvOpd" || with_zero(value) && head[kid[value, 1]] ~ /^(add|sub)$/)
}
function called(x, ways,  p, worked, led, does) {
    p = kid[x, 3]
    worked = any_in(kid[x, 2], by)
    led = leads(kid[x, 2], into)
    does = handed(x, into, by)
    if (does == 2 || does && has(needed, base(p))) ways = using(ways)
    if (lends_leader(kid[x, 2])) {
        if (callee(x) ~ /Iterator::next"$/ && head[kid[kid[x, 1], 1]] == "kit" && whole(p)) ways = moving(ways, 1)
        else anew = 1
    }
    if (through(p)) return ways
    if (base(p) == leader) ways = moving(ways, worked)
    becomes(base(p), whole(p), worked, led)
    return ways
}

# Which locals are iterators over a slice that parameter j leads into, as texts `over[l]` of numbers; and `points[l]`, the local whose address l has. A local that is set
# in two ways is none.
function iterators(  k, x, p, l, j, was, into, made, set, all) {
    split("", over); split("", points)
    for (j = 1; j <= params; j++) if (walkable[j]) {
        into = " " j " "
        do {
            was = into
            for (k = 1; k <= many; k++) {
                x = statement[k]
                if (head[x] !~ /^(assign|call)$/) continue
                p = kid[x, head[x] == "assign" ? 1 : 3]
                if (!through(p) && depth_of[base(p)] && leads(kid[x, 2], into)) into = with(into, base(p))
            }
        } while (into != was)
        reach[j] = into
    }
    for (k = 1; k <= many; k++) {
        x = statement[k]
        if (head[x] !~ /^(assign|call)$/) continue
        p = kid[x, head[x] == "assign" ? 1 : 3]
        if (!through(p)) set[base(p)]++
        if (head[x] == "assign" && head[kid[x, 2]] == "addrOf" && whole(kid[kid[x, 2], 1]) && whole(p)) points[base(p)] = base(kid[kid[x, 2], 1])
    }
    do {
        was = all; all = ""
        for (k = 1; k <= many; k++) {
            x = statement[k]
            if (head[x] !~ /^(assign|call)$/) continue
            p = kid[x, head[x] == "assign" ? 1 : 3]; l = base(p)
            if (!whole(p) || set[l] != 1) continue
            made = head[x] == "call" && head[kid[kid[x, 1], 1]] == "kit" ? iterator[callee(x)] : ""
            if (made == "slice") { for (j = 1; j <= params; j++) if (walkable[j] && leads(argument(x, 1), reach[j])) over[l] = with(over[l], j) }
            else if (made) over[l] = over_of(argument(x, 1)) (made == "both" ? over_of(argument(x, 2)) : "")
            else if (head[x] == "assign" && head[kid[x, 2]] == "rvOpd") over[l] = over_of(kid[kid[x, 2], 1])
            all = all l ":" over[l] ";"
        }
    } while (all != was)
}
# The same of what is handed on, which may be only pointed to.
function over_of(x,  n) {
    n = places(x)
    if (n != 1 || !whole(place[1])) return ""
    return points[base(place[1])] ? over[points[base(place[1])]] : over[base(place[1])]
}
# The parameters over whose slices a loop of the kit walks.
function library_walks(x,  j, k, n, part, line) {
    if (callee(x) in over_slices) {
        n = split(over_slices[callee(x)], part, " ")
        for (j = 1; j <= params; j++) for (k = 1; k <= n; k++) if (walkable[j] && leads(argument(x, part[k]), reach[j])) { line = line " " j; break }
    } else if (callee(x) in over_iterator) {
        part[1] = over_of(argument(x, over_iterator[callee(x)]))
        for (j = 1; j <= params; j++) if (has(part[1], j)) line = line " " j
    } else strange(plain(callee(x)))
    return line
}

# The functions, each after those that it calls.
function all_called(x, name,  c, k, line) {
    c = kid[kid[x, 1], 1]
    if (head[c] == "method") return ""
    if (head[c] != "fn" && head[c] != "kit") { strange(head[c]); return "" }
    # A trait's own method, called by the implementation's of the same name that stands for it, does not come back to that one.
    for (k = 1; k <= size[c]; k++)
        if ((k != 2 || head[c] != "kit") && !(head[c] == "kit" && head[kid[c, k]] == name && last_word(callee(x)) == last_word(name))) line = line " " head[kid[c, k]]
    return line
}
function last_word(name) { sub(/.*::/, "", name); return name }
function sorted(name,  k, m, n, i, part, called_here) {
    if (name in colour) { if (colour[name] == 1) print "calls " plain(name); return }
    colour[name] = 1
    many = 0
    if (name in defined) statements(kid[defined[name], 5])
    m = many
    for (k = 1; k <= m; k++) called_here[k] = head[statement[k]] == "call" ? all_called(statement[k], name) : ""
    for (k = 1; k <= m; k++) {
        n = split(called_here[k], part, " ")
        for (i = 1; i <= n; i++) sorted(part[i])
    }
    colour[name] = 2
    if (name in defined) order[++functions] = name
}

function walks(turn,  line, ways) {
    for (walked = 1; walked <= params; walked++) {
        if (!walkable[walked]) continue
        for (leader = 1; leader <= locals; leader++) {
            if (leader == walked || lent_out[leader] && !has(over[leader], walked)) continue
            by = " " leader " "; into = " " walked " " (lent_out[leader] ? leader " " : "")
            left[0] = anew = 0
            ways = walk(turn, bit[0], 0)
            if (!anew && joined(ways, left[0]) == bit[3]) { line = line " " walked; break }
        }
    }
    return line
}

END {
    for (name in defined) sorted(name)
    for (o = 1; o <= functions; o++) {
        f = defined[order[o]]
        locals_of(f)
        many = loops = 0
        statements(kid[f, 5])
        matter()
        stored()
        ours = !(order[o] in over_slices || order[o] in over_iterator)
        if (ours) for (j = 1; j <= params; j++) for (g = 1; g <= params; g++) taking[order[o], j, g] = takes(j, g)
        for (k = 1; k <= many; k++) {
            if (head[statement[k]] == "loop") { loops++; turn = kid[statement[k], 1]; kits = 0 }
            if (library(statement[k], "loops")) { loops++; kits = statement[k] }
            if (library(statement[k], "formats") && order[o] !~ /(Debug|Display)::fmt"$/) strange(plain(callee(statement[k])))
        }
        if (!loops) continue
        iterators()
        line = loops > 1 ? "" : kits ? library_walks(kits) : walks(turn)
        # What is known of the kit's loops is held against those whose code tells it.
        if (!ours) {
            if (line != "" && line != " " over_slices[order[o]]) print "form " plain(order[o])
            else if (line != "") print "loop " plain(order[o]) line
        }
        else if (loops == 1) print "loop " plain(order[o]) line
        else print "twice " plain(order[o])
    }
}
