#!/bin/sh
# Counts the places that the design pass looks at, in the code of all crates but their tests.
# Prints one line for each search; with the word `list`, also the places.
cd "$(dirname "$0")/.." || exit 1
list=$1

search() {
    found=$(grep -rnE --include='*.rt' "$2" crates/*/src | grep -v '/tests\.rt:' | grep -vE '^[^:]*:[0-9]*: *//')
    count=$(printf '%s' "$found" | grep -c '^')
    printf '%4d  %s\n' "$count" "$1"
    if [ "$list" = list ] && [ "$count" -gt 0 ]; then
        printf '%s\n' "$found" | sed 's/^/        /'
    fi
}

search '1a own enums' '^ *(pub(\(crate\))? )?enum '
search '1b flags in structs' '^ +(pub(\(crate\))? )?[a-z_]+: bool,$'
search '1c a value for none or for an error, by a match' '(None|Err\(_\)) => (0|false|Papers::none\(\)),'
search '1d pairs as errors' 'Result<[^>]*, \('
search '1e a number that says nothing as answer' '^pub fn [a-z_]+\(\) -> u8$'
search '1f numbers for a book, a source, a mode or a kind of train' '\b(source|mode|kind|book): u(8|32)'
search '1g numbers of refusals' 'fn number\(self\) -> u8'
search '1h Ok or Err passed on by a match' '(Ok\([a-z_]+\) => Ok\(|Err\([a-z_]+\) => Err\(|Some\([a-z_]+\) => Some\(|None => (None|Err|Ok))'
search '2  functions, to be read side by side' '^ *(pub(\(crate\))? )?(extern "C" )?fn '
search '3a loops with while or loop' '^ *(while|loop)\b'
search '3b for over a range of numbers' '\bfor [a-z_]+ in [^ ]*\.\.'
search '3c an index tested by hand' '(if|&&) \(?[a-z_.]+ (<|>=) [a-z_.]+\.len\(\)|if [a-z_.]+ < (8|9|SPACES|TRAIN_KINDS)\b'
search '4a equality, order or copying by hand' 'fn (is_same_|same_[a-z]+_row|same_certificates|longer|copy_of)'
search '4b conversion by hand: functions' 'fn (printed_book|word_number|high|low|byte_at|pair_at|call_of|number_of)\b'
search '4c conversion by hand: as' ' as (usize|u8|u16|u32|u64|i32|i64)\b'
search '4d printing by hand: functions that push' 'fn (push_[a-z_]+|push|words_of_[a-z]+|say[a-z_]*|show_[a-z_]+)\b'
search '5a conditions of callers' '^ *requires '
search '5b the place of a treasury or of a seat among papers' 'players as usize$|as usize \+ company as usize|(seat|new|old|before) as usize \+ [12]'
search '5c parameters source and space together' '(source: u8, space: u16|source: u8,$)'
search '5d bits of a set read by hand' '(>> (number|tag) & 1|bits & 1 ==|< 512)'
search '6a rows of fixed size and their lengths' ': \[(Cash|Papers|Trains|Company|u8|u16); [0-9A-Z]+\],$|^ +(pub(\(crate\))? )?(len|players): (usize|u8),$'
search '6b constant tables' '^ *(pub(\(crate\))? )?const [A-Z_]+: \['
search '7  a match on which call or record it is' '=> (judge_|call_|try_|put_front|with_)'

# Proofs: files of answers and of invariants for single functions, and the lines of lemmas.
count_files() {
    printf '%4d  %s\n' "$(find crates/*/proofs -name "$2" | wc -l)" "$1"
}
count_files '8a files of answers' Answers.antt
count_files '8b files of invariants' Invariants.antt
printf '%4d  %s\n' "$(grep -rhE --include=Answers.antt '^pub [^ ]+ :' crates/*/proofs | wc -l)" '8c answers'
printf '%4d  %s\n' "$(find crates/*/proofs -name '*.antt' ! -name Answers.antt ! -name Invariants.antt ! -path '*/promises/*' -exec cat {} + | wc -l)" '8d lines of lemmas, but for those on lives'
