# The words of a clause, by its brackets.

# One space between two words, where brackets, commas and the dot of a lambda are words, and a field with the dot before it.
function spaced(text) {
    gsub(/«|»/, "", text)
    gsub(/[(){},]|[.] /, " & ", text)
    gsub(/[.][a-z0-9]/, " &", text)
    gsub(/[ \t]+/, " ", text)
    gsub(/^ | $/, "", text)
    return text
}

# The words of a text, where what stands in brackets is one; how many.
function words_of(text, list,    word, n, i, depth, count) {
    n = split(text, word, " ")
    for (i = 1; i <= n; i++) {
        if (depth == 0)
            list[++count] = word[i]
        else
            list[count] = list[count] " " word[i]
        depth += (word[i] ~ /^[({]$/) - (word[i] ~ /^[)}]$/)
    }
    return count
}

# What stands between those words that are a separator; how many.
function split_at(separator, text, list,    word, n, i, count) {
    n = words_of(text, word)
    list[count = 1] = ""
    for (i = 1; i <= n; i++)
        if (word[i] == separator)
            list[++count] = ""
        else
            list[count] = list[count] " " word[i]
    return count
}

# A text without brackets around the whole of it.
function unwrapped(text,    word) {
    return words_of(text, word) == 1 && word[1] ~ /^[(] / ? substr(word[1], 3, length(word[1]) - 4) : text
}

# A text with a mark for what a pattern describes, in brackets or not.
function marked(text, pattern, mark) {
    text = " " text " "
    while (sub(" ([(] " pattern " [)]|" pattern ") ", " " mark " ", text));
    return text
}
