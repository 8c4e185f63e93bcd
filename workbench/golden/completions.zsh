#compdef nghi
# source <(nghi completions zsh)
_nghi() {
    local -a commands=(
        'check:whether it can be played, and what is wrong or deserves a look'
        'programs:each party'\''s events with the narration'\''s own names and lines'
        'knows:who holds what, how and since when, and who can build it'
        'play:a run of the programs, move by move, and how it leaves each party'
        'judge:whether another tool'\''s listing of a party is ours but for the names of placeholders'
        'draw:a picture of the run, of at most 400 events; what is refused is drawn up to its step'
        'build:writes the book, and its names beside it as X.names; or of a book a narration; never over its source'
        'watch:checks a file, or a folder'\''s narrations, again on every change'
        'explain:what a refusal or a warning means: the rule, an example, the cure'
        'new:writes NAME.narration, a small one to begin with; never over a file that is there'
        'completions:a script for the shell, which completes commands and options'
    )
    if (( CURRENT == 2 )); then
        _describe command commands
        return
    fi
    local command=$words[2]
    shift words
    (( CURRENT-- ))
    case $command in
        check) _arguments '*--deny[W1 to W5, or all]:value:_files' '--json[one line of JSON, for programs]' '*:file:_files' ;;
        programs) _arguments '--party[a party'\''s name]:value:_files' '--json[one line of JSON, for programs]' '*:file:_files' ;;
        knows) _arguments '--party[a party'\''s name]:value:_files' '--at[a line: what is held after its step; of a book, a step]:value:_files' '--term[a term, as the narration has it]:value:_files' '--json[one line of JSON, for programs]' '*:file:_files' ;;
        play) _arguments '--order[narration, round, reverse or random:SEED]:value:_files' '--moves[parties'\'' names with commas, a move each]:value:_files' '--json[one line of JSON, for programs]' '*:file:_files' ;;
        judge) _arguments '--ours[our own listing of the party]' '--json[one line of JSON, for programs]' '*:file:_files' ;;
        draw) _arguments '-o[the picture'\''s file, or - for standard output]:value:_files' '--order[narration, round, reverse or random:SEED]:value:_files' '--as[svg, html or mmd, where the file'\''s name does not say it]:value:_files' '--force[also over a file that is something else]' '--json[one line of JSON, for programs]' '*:file:_files' ;;
        build) _arguments '-o[the book'\''s file, or the narration'\''s]:value:_files' '--force[also over a file that is something else]' '--json[one line of JSON, for programs]' '*:file:_files' ;;
        watch) _arguments '--html[a page of the file'\''s run, drawn again on every change]:value:_files' '--once[looks once, and ends]' '--json[one line of JSON, for programs]' '*:file:_files' ;;
        explain) _arguments '--json[one line of JSON, for programs]' '1:word:(R1 R2 R3 R4 R5 R6 R7 R8 R9 R10 R11 R12 R13 R20 R21 R22 R24 W1 W2 W3 W4 W5)' ;;
        new) _arguments '--json[one line of JSON, for programs]' '*:file:_files' ;;
        completions) _arguments '--json[one line of JSON, for programs]' '1:word:(bash zsh fish)' ;;
    esac
}
if [ "$funcstack[1]" = _nghi ]; then _nghi "$@"; else compdef _nghi nghi; fi
