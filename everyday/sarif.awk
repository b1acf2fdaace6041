# The form of SARIF 2.1.0: one document of all results, with a rule for each code that they have.

function begin_form() {
    print "{\"$schema\": \"https://json.schemastore.org/sarif-2.1.0.json\", \"version\": \"2.1.0\","
    print "\"runs\": [{\"columnKind\": \"unicodeCodePoints\", \"results\": ["
}

function tell_line(result,    code) {
    print results++ ? "," : ""
    printf "%s", result
    code = substr(result, 13, 3)
    if (!(code in rules)) in_turn[++codes_seen] = code
    rules[code] = rule_of(result)
    match(result, /"uri": "[^"]*"/)
    count_finding(file_of(substr(result, RSTART + 8, RLENGTH - 9)))
}

# What a code says, without what is quoted.
function rule_of(result) {
    match(result, /"text": "[^"]*"/)
    result = substr(result, RSTART + 9, RLENGTH - 10)
    sub(/ '.*/, "", result)
    return result
}

function file_of(reference) {
    sub(/^file:\/\//, "", reference)
    return unpercented(reference)
}

function tell_sum(line) { return }

function tell_part(line) { return }

function end_form(    i) {
    print "], \"tool\": {\"driver\": {\"name\": \"snl-check\", \"rules\": ["
    for (i = 1; i <= codes_seen; i++)
        print "{\"id\": \"" in_turn[i] "\", \"shortDescription\": {\"text\": \"" \
            rules[in_turn[i]] "\"}}" (i < codes_seen ? "," : "")
    print "]}}}]}"
}
