#!/usr/bin/env bash
# Checks the exit statuses, the standard error and the output files of the built program, byte for byte.
#
#   tests/command.sh [PROGRAM]
source "$(dirname "$0")/checks.sh" || exit 2

# ---- two samples of 200, one row below the other

run 'two samples are compressed' 0 '' compress $two raw coded
holds 'two samples are compressed' coded "$file"
run 'two samples are expanded' 0 '' expand --bytes 1 coded back
same 'two samples are expanded' raw back

printf 'old contents, longer than the file that comes' > coded
run 'OUT is emptied' 0 '' compress $two raw coded
holds 'OUT is emptied' coded "$file"

tall=2
cat > lines <<END
user 0
columns 1
rows $tall
bands 1
sample unsigned
bits 8
order bsq
word 1
coder sample
previous 0
mode reduced
sums column
register 32
omega 13
interval 64
vmin -1
vmax 3
start usual
umax 16
gamma-star 6
gamma-zero 1
k 3
header 19
END
"$program" inspect < coded > inspected 2> stderr
check 'inspect' 0 '' $?
same 'inspect' lines inspected

printf '\0\1\0\2\0\1\xc8\xc8' > small
"$program" show < small > shown 2> stderr
check 'show' 0 '' $?
printf '%s\n' "$file" > text
same 'show' text shown

# ---- a cube of two bands, on one thread and with predictors in threads of their own

printf 'dfiehgnospqr' > cube
both='--columns 3 --rows=2 --bands 2 --bits 8 --bytes 1 --previous 1 --register 32 --order bi --depth 2'
by_pixel=000003000200021000020800042092590082263714b9da8c9760
for shared in '' '--predictors 2' '--predictors 2 --slots 1' '--predictors 64 --slots 65536'; do
    run "two bands: $shared" 0 '' compress $both $shared cube woven
    holds "two bands: $shared" woven "$by_pixel"
done

# ---- refused input leaves OUT empty

printf '\xc8' > short
echo something > out
run 'too few raw bytes' 2 $'ccsds: 14 RawLength 2 1\n' compress $two short out
holds 'too few raw bytes' out ''
printf '\xc8\xc8\xc8\xc8' > long
run 'too many raw bytes' 2 $'ccsds: 14 RawLength 2 3\n' compress $two long out
# What is read at once grows by 65,536 bytes, so the one byte too many is read alone.
wide='--columns 65536 --rows=1 --bands 1 --bits 8 --bytes 1'
head -c 65537 /dev/zero > long
run 'a byte too many after 65,536' 2 $'ccsds: 14 RawLength 65536 65537\n' compress $wide long out
head -c 65537 /dev/zero | timeout 60 "$program" compress $wide /dev/stdin out > stdout 2> stderr
check 'a byte too many after 65,536 in a pipe' 2 $'ccsds: 14 RawLength 65536 65537\n' $?
{ printf '\0\0\0\1\0\1'; cat long; } | timeout 60 "$program" show > stdout 2> stderr
check 'a byte too many after 65,536 is shown' 2 $'ccsds: 14 RawLength 65536 65537\n' $?
head -c 65536 long > wide
run '65,536 bytes' 0 '' compress $wide wide out
run 'full mode on one column' 2 $'ccsds: 4 Disagree FullOneColumn\n' \
    compress ${two/ --reduced/} raw out
run 'neighbour sums on one column' 2 $'ccsds: 4 Disagree NeighbourOneColumn\n' \
    compress ${two/ --column-sums/} raw out
run 'a constant too great' 2 $'ccsds: 4 Disagree StartConstant\n' compress $two --k 7 raw out
run 'a register too small' 2 $'ccsds: 4 Disagree RegisterTooSmall\n' \
    compress --columns 2 --rows=1 --bands 1 --bits 16 --omega 19 --register 36 raw out
run 'a restricted set of five bits' 2 $'ccsds: 4 Disagree RestrictedOverFour\n' \
    compress --coder block --columns 2 --rows=1 --bands 1 --bits 5 --restricted raw out
run 'a sample out of range' 2 $'ccsds: 13 SampleRange 0\n' \
    compress --columns 1 --rows=1 --bands 1 --bits 7 --reduced --column-sums raw out
head -c 11 coded > cut
run 'a header cut off' 2 $'ccsds: 1 ShortHeader\n' expand cut out
"$program" inspect < cut > stdout 2> stderr
check 'a header cut off, inspected' 2 $'ccsds: 1 ShortHeader\n' $?
holds 'a header cut off, inspected' stdout ''
head -c 20 coded > cut
run 'a body cut off' 2 $'ccsds: 6 Truncated 160\n' expand cut out
{ cat coded; printf '\0'; } > longer
run 'a byte too many' 2 $'ccsds: 11 TooLong 12\n' expand longer out
{ head -c 20 coded; printf '\x81'; } > filled
run 'a fill bit of one' 2 $'ccsds: 10 BadFill\n' expand filled out
holds 'a fill bit of one' out ''

# ---- files that can't be opened or created, and devices that fail

rm -f out
run 'no IN' 4 $'ccsds: 18 Read\n' compress $two missing out
run 'no IN, and parameters that disagree' 4 $'ccsds: 18 Read\n' compress $two --k 7 missing out
run 'no IN to expand' 4 $'ccsds: 18 Read\n' expand missing out
if [ -e out ]; then complain 'OUT was made though IN is missing'; fi
run 'IN is a folder' 4 $'ccsds: 18 Read\n' compress $two / out
holds 'IN is a folder' out ''
run 'IN is a program that runs' 2 $'ccsds: 14 RawLength 2 3\n' compress $two "$program" out
run 'OUT in no folder' 4 $'ccsds: 19 Write 0\n' compress $two raw none/out
run 'OUT is a folder' 4 $'ccsds: 19 Write 0\n' expand coded .
run 'a full device' 4 $'ccsds: 19 Write 0\n' compress $two raw /dev/full
run 'a full device to expand to' 4 $'ccsds: 19 Write 0\n' expand --bytes 1 coded /dev/full
"$program" show < small > /dev/full 2> stderr
check 'show to a full device' 4 $'ccsds: 19 Write 0\n' $?
"$program" inspect < coded > /dev/full 2> stderr
check 'inspect to a full device' 4 $'ccsds: 19 Write 0\n' $?

# ---- OUT is IN by another name: neither is touched

mkdir -p folder
for name in ./raw folder/../raw "$room/raw"; do
    run "IN is also $name" 4 $'ccsds: 19 Write 0\n' compress $two raw "$name"
done
ln -s raw link
ln raw hard
ln -s ../raw folder/link
for name in link hard folder/link; do
    run "IN is also $name" 4 $'ccsds: 19 Write 0\n' compress $two raw "$name"
    run "$name is also IN" 4 $'ccsds: 19 Write 0\n' compress $two "$name" raw
done
holds 'IN under other names' raw c8c8
run 'IN that is also OUT is expanded' 4 $'ccsds: 19 Write 0\n' expand coded ./coded
holds 'IN that is also OUT is expanded' coded "$file"
cp raw again
run 'OUT has the same bytes' 0 '' compress $two raw again
holds 'OUT has the same bytes' again "$file"

# ---- an OUT that exists is emptied in place: its other names refer to the new contents, and its mode stays

printf 'old contents, longer than the file that comes' > there
chmod 640 there
ln there other
ln -s there leading
run 'OUT has another name' 0 '' compress $two raw there
holds 'OUT has another name' other "$file"
printf 'old contents, longer than the file that comes' > there
run 'OUT is a link' 0 '' compress $two raw leading
holds 'OUT is a link' other "$file"
if [ ! -L leading ]; then complain 'OUT is a link no more'; fi
if [ "$(stat -c %a there)" != 640 ]; then complain "OUT has got another mode: $(stat -c %a there)"; fi
rm -f new
umask 026
run 'OUT is new' 0 '' compress $two raw new
umask 022
if [ "$(stat -c %a new)" != 640 ]; then complain "a new OUT has the mode $(stat -c %a new)"; fi
cp raw private
chmod 600 private
rm -f new
run 'IN is private' 0 '' compress $two private new
if [ "$(stat -c %a new)" != 600 ]; then complain "OUT of a private IN has the mode $(stat -c %a new)"; fi
rm -f back
run 'a private IN is expanded' 0 '' expand --bytes 1 new back
if [ "$(stat -c %a back)" != 600 ]; then complain "expanded from a private IN, OUT has the mode $(stat -c %a back)"; fi

# ---- pipes are opened once

mkfifo from to
rm -f coded
cat raw > from &
run 'IN is a pipe' 0 '' compress $two from coded
if [ "$(stat -c %a coded)" != 644 ]; then complain "a new OUT of a pipe has the mode $(stat -c %a coded)"; fi
holds 'IN is a pipe' coded "$file"
timeout 60 cat to > got &
run 'OUT is a pipe' 0 '' compress $two raw to
wait
holds 'OUT is a pipe' got "$file"

# All of IN is in its pipe, and the writing end is closed, before OUT can be opened. A program that opens IN again finds nothing.
timeout 60 cp raw from &
giver=$!
timeout 60 "$program" compress $two from to > stdout 2> stderr < /dev/null &
ran=$!
wait "$giver"
timeout 60 cp to got
wait "$ran"
check 'IN and OUT are pipes' 0 '' $?
holds 'IN and OUT are pipes' got "$file"
# IN is a pipe and OUT the same one by another name: it isn't opened to write, where it would wait for a reader.
mkfifo pipe
timeout 60 cp raw pipe 2> complaint &
giver=$!
run 'IN is a pipe, and OUT the same one' 4 $'ccsds: 19 Write 0\n' compress $two pipe ./pipe
wait "$giver"
ln -s pipe pipe_link
timeout 60 cp raw pipe 2> complaint &
giver=$!
run 'IN is a pipe, and OUT leads to it' 4 $'ccsds: 19 Write 0\n' compress $two pipe pipe_link
wait "$giver"

mkfifo slow
{ printf '\xc8'; sleep 0.3; printf '\xc8'; } > slow &
run 'IN comes in two pieces' 0 '' compress $two slow coded
holds 'IN comes in two pieces' coded "$file"
{ head -c 7 small; sleep 0.3; tail -c 1 small; } | "$program" show > shown 2> stderr
check 'the standard input comes in two pieces' 0 '' $?
same 'the standard input comes in two pieces' text shown

# ---- names beyond ASCII, with blanks at their ends, with line ends, long ones, and the empty one

long=$(printf 'x%.0s' $(seq 1 250))
far=$(printf './%.0s' $(seq 1 1900))
# No other file has these bytes, so a program that strips blanks or quotes from a name can't find them.
mv raw bytes
for name in 'zwei Wörter' "$long" "$far$long" 'ä\n*' ' raw' 'raw ' $'raw\n' $'zwei\nZeilen' $'\traw' - '"raw"' '$raw' '~' '%41'; do
    short=${name:0:40}
    cp bytes "./$name"
    rm -f coded
    run "IN is $short" 0 '' compress $two "$name" coded
    holds "IN is $short" coded "$file"
    run "OUT is $short" 0 '' compress $two bytes "$name"
    holds "OUT is $short" "./$name" "$file"
    rm "./$name"
done
mv bytes raw
run 'a name without letters' 4 $'ccsds: 18 Read\n' compress $two '' coded
run 'a word without letters' 1 "$usage" compress $two '' raw coded
run 'a word without letters, after show' 1 "$usage" show ''

# ---- a pipe that nobody reads, and closed streams

{
    sleep 0.3
    exec "$program" show < small 2> stderr
} | true
check 'nobody reads' 4 $'ccsds: 19 Write 0\n' "${PIPESTATUS[0]}"
"$program" expand missing out 2> /dev/full
if [ $? -ne 4 ]; then complain 'no room for the line: another status'; fi
"$program" expand missing out 2>&-
if [ $? -ne 4 ]; then complain 'no standard error: another status'; fi
"$program" inspect > stdout 2> stderr <&-
check 'no standard input' 4 $'ccsds: 18 Read\n' $?
"$program" show < small 2> stderr >&-
check 'no standard output' 4 $'ccsds: 19 Write 0\n' $?

# ---- a file far larger than its header

printf "$(printf %s "$file" | sed 's/../\\x&/g')" > large
truncate -s 200M large
"$program" inspect < large > inspected 2> stderr
check 'a large file' 0 '' $?
same 'a large file' lines inspected
rm large

# ---- words that are not a lawful command leave OUT as it was

echo something > out
cp out before
run 'no words' 1 "$usage"
run 'help' 1 "$usage" help
run '--help' 1 "$usage" --help
run 'help of a command' 1 "$usage" compress --help
run '--version' 1 "$usage" --version
run 'an unknown command' 1 "$usage" code raw out
run 'a word too many' 1 "$usage" show raw
run 'a required option left out' 1 "$usage" compress ${two/ --rows=2/} raw out
run 'a value out of range' 1 "$usage" compress ${two/--bits 8/--bits 17} raw out
run 'an option twice' 1 "$usage" compress $two --bits 8 raw out
run 'a flag twice' 1 "$usage" compress $two --reduced raw out
run 'an unknown option' 1 "$usage" compress $two --fast raw out
run 'no OUT' 1 "$usage" compress $two raw
run 'three files' 1 "$usage" compress $two raw out more
run 'a thousand words' 1 "$usage" compress $(seq 999)
run 'one name for both files' 1 "$usage" compress $two out out
run 'words that are no text' 1 "$usage" expand $'\xff' out
same 'OUT after no lawful command' before out

# ---- compressed and expanded, in each layout and each order, by both coders

head -c 36000 /dev/urandom > raw # 20 columns, 30 rows, 30 bands of two bytes
size='--columns 20 --rows=30 --bands 30 --bits 16'
for layout in '--layout bsq' '--layout bil' '--layout bip' '--little' '--layout bip --little'; do
    for order in '' '--order bi' '--order bi --depth 30' '--order bi --depth 7'; do
        for coder in '--coder sample' '--coder block'; do
            name="there and back: $layout $order $coder"
            run "$name" 0 '' compress $size $layout $order $coder --signed raw coded
            run "$name" 0 '' expand $layout coded back
            same "$name" raw back
        done
    done
done
run 'another layout' 0 '' compress $size raw coded
run 'another layout' 0 '' expand --layout bip coded pixels
run 'another layout' 0 '' compress $size --layout bip pixels again
same 'another layout' coded again

echo "command.sh: $passed passed, $failed failed"
[ "$failed" -eq 0 ]
