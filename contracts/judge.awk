# Judges contracts: awk -f clauses.awk -f judge.awk LIST SOURCE..
#
# LIST has the views, as fields `pub NAME : TellsApart POSSIBLE VIEW` of a record, or `pub NAME : (OLD : TYPE) → TellsApart ..`,
# for any value that stood before the call. The sources have public functions, methods of traits among them. A contract is
# `ensures { (view of the answer ≡ what is given) × .. }`, one such clause or several that have names. The parts of an answer
# are the result and what is left in each buffer that is lent with `&mut`. An equation fixes the parts on its left side, if that
# is a view on the list and its right side names no part. Every part has to be fixed; what else a contract says only narrows it.
#
# Methods are judged in the trait and in each impl. In the trait, where no type is known, a ghost of that trait counts as a view;
# each impl has to say its answers by the list. A method may lack a contract only in an impl for a type that its file keeps within
# the crate, since no other crate can call it: `try_from` of the kinds and events of `unit_life`. What is derived has no text.
#
# Below, `@` stands for `result` and `@out` for `out.new`. A view is known by its form: its words, each name with the module that
# it comes from, `_` for each part, and `$` for OLD, for which a contract may have any argument that it was given. The sources are
# in the formatter's layout: a body begins with the first line that ends in a bracket, or is `{}`.

# A contract's text with `$` for each argument that was given: that names neither a part nor anything else that is left.
function with_given(text,    argument, i, n, said) {
    n = words_of(text, argument)
    for (i = 1; i <= n; i++) {
        if (argument[i] " " !~ /(^| )@|[.](new|exit) / && i > 1 && argument[i] !~ /^[.]/)
            argument[i] = "$"
        else if (argument[i] ~ /^[(] /)
            argument[i] = "( " with_given(substr(argument[i], 3, length(argument[i]) - 4)) " )"
        said = said " " argument[i]
    }
    return substr(said, 2)
}

# What each OLD of a field is in the form of its view: `$`, if the field names it there alone, and once. Else the view was proved
# for some values only, and it is `?`, which no contract has.
function find_old(field,    word, argument, binder, i, times) {
    split("", old)
    for (i = split(field, word, " "); i > 0; i--)
        times[word[i]]++
    for (i = words_of(field, argument); i > 0; i--) {
        split(argument[i], binder, " ")
        if (binder[3] == ":")
            old[binder[2]] = times[binder[2]] == 2 ? "$" : "?"
    }
}

function form(text,    word, n, i, said) {
    n = split(text, word, " ")
    for (i = 1; i <= n; i++) {
        if (word[i] ~ /^@/)
            word[i] = "_"
        else if (word[i] in old)
            word[i] = old[word[i]]
        else if (word[i] in home)
            word[i] = home[word[i]]
        said = said " " word[i]
    }
    return said
}

# A view is a name or `λ (a : TYPE). BODY`. If BODY is a tuple, a contract for a result of TYPE has an equation for each element.
function add_view(name, view,    piece, binder, element, i) {
    if (view !~ /λ/)
        view = "λ a . " view " a"
    split_at(".", unwrapped(view), piece)
    gsub(/λ|[():]/, "", piece[1])
    split(piece[1], binder, " ")
    elements[name] = split_at(",", unwrapped(marked(piece[2], binder[1] "( [.][0-9]+)?", "@")), element)
    for (i = 1; i <= elements[name]; i++)
        view_of[(elements[name] > 1 ? binder[2] ":" : "") form(element[i])] = name
    names[++views] = name
    place[name] = FILENAME ":" FNR
}

# The parts of a function's answer, as keys of `open`, with words for each; gives the result's type.
function open_parts(word, n,    i, name, type) {
    split("", open)
    for (i = 1; i <= n && word[i] !~ /^(requires|ensures|[{])$/; i++)
        if (word[i] == "->") {
            open["@"] = "its result"
            type = word[i + 1]
        } else if (word[i] ~ /&/ && word[i] word[i + 1] ~ /&('[a-z]+)?mut/) {
            name = sub(/:$/, "", word[i - 1]) ? word[i - 1] : "self"
            open["@" name] = "what it leaves in `" name "`"
        }
    sub(/<.*/, "", type)
    return type
}

# Takes the parts that an equation fixes out of those that are open. A condition or an alternative is no equation; a tuple fixes
# its part when there is an equation for each of its elements.
function judge_equation(text, type,    side, view, word, i) {
    if (split_at("≡", unwrapped(text), side) != 2 || side[2] " " ~ /@|[.](new|exit) |→|⊎/)
        return
    if (split(side[1], word, " ") == 2 && word[1] in ghosts)
        delete open[word[2]]
    for (i = 0; i < 2 && !(view in view_of); i++) {
        view = form(i ? with_given(side[1]) : side[1])
        if (!(view in view_of) && side[1] " " ~ / @ /)
            view = type ":" view
    }
    if (!(view in view_of) || (view, side[1]) in met)
        return
    met[view, side[1]]
    view = view_of[view]
    if (++equations[view] < elements[view])
        return
    used[view]
    for (i = split(side[1], word, " "); i > 0; i--)
        delete open[word[i]]
}

# Judges a function by its text up to the body.
function judge(text, where,    word, n, i, k, said, type, body, part, equation) {
    contracts++
    match(text, / fn [a-z0-9_]+/)
    where = where substr(text, RSTART, RLENGTH) ": "
    if (text ~ / requires[ *]/) {
        report(where "it asks something of its caller")
        return
    }
    said = spaced(text)
    type = open_parts(word, split(said, word, " "))
    split("", met)
    split("", equations)
    n = words_of(said, word)
    for (i = 1; i < n; i++) {
        if (word[i] != "ensures")
            continue
        body = word[i + 1] ~ /^[{]/ ? word[i + 1] : word[i + 2]
        body = marked(substr(body, 3, length(body) - 4), "result", "@")
        for (part in open)
            body = marked(body, substr(part, 2) " [.]new", part)
        for (k = split_at("×", body, equation); k > 0; k--)
            judge_equation(equation[k], type)
    }
    sub(/ *([{] *[}]?|;) *$/, "", text)
    i = index(text, " ensures")
    for (part in open)
        report(where "no view on the list fixes " open[part] ": " (i ? substr(text, i + 1) : "it has no contract"))
}

# The name in a text behind some words.
function named_after(words, text) {
    sub(".*" words, "", text)
    sub(/[^A-Za-z0-9_].*/, "", text)
    return text
}

function report(text) {
    print text
    reports++
}

FNR == 1 {
    split("", home)
    split("", old)
    split("", inner)
    head = ""
}

# `use MODULE.{NAME, NAME as OTHER, ..}`
/^(ghost )?use .*[.][{]/ {
    module = $0
    gsub(/^(ghost )?use |[.][{].*/, "", module)
    gsub(/.*[.][{]|[}].*/, "")
    for (i = split($0, name, / *, */); i > 0; i--) {
        split(name[i], called, " as ")
        home[2 in called ? called[2] : called[1]] = module "." called[1]
    }
}

FNR == NR && /^  pub .* TellsApart / {
    find_old(spaced($0))
    n = words_of(spaced($0), argument)
    add_view($2, argument[n])
}

FNR < NR {
    sub(/[ \t]*\/\/.*/, "")
    # The head of an item stands in one line or in several.
    whole = "[{};]$|^ *#.*[]]$"
    if (head ~ whole && /^[^ \t]/) {
        head = ""
        split("", ghosts)
    }
    if (head !~ whole)
        head = head " " $0
    of_trait = head ~ /^ *(unsafe )?impl.* for /
    in_trait = head ~ /^ *([a-z()]+ )*trait /
    may_lack = of_trait && named_after(" for ", head) in inner
    if (/^(pub[(][a-z]+[)] )?(struct|enum) /)
        inner[named_after("(struct|enum) ", $0)]
    if (in_trait && /^    ghost [a-z_]+:/)
        ghosts[substr($2, 1, length($2) - 1)]
    if (/(^|[ \t])pub ([a-z]+ |"C" )*fn / || ((of_trait || in_trait) && /^    ([a-z]+ |"C" )*fn /))
        where = FILENAME ":" FNR
    if (where)
        text = text " " $0
    if (where && (/[{][ \t]*[}]?[ \t]*$/ || (in_trait && /;[ \t]*$/))) {
        if (!may_lack || text ~ / ensures /)
            judge(text, where)
        where = text = ""
    }
}

END {
    for (i = 1; i <= views; i++)
        if (!(names[i] in used))
            report(place[names[i]] " " names[i] ": no public contract uses this view")
    printf "%d contracts of public functions, %d views, ", contracts, views
    print reports ? reports " faults" : "each contract with views on the list and each view used"
    exit !views || !contracts ? 2 : reports > 0
}
