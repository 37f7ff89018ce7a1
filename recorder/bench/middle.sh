# Captures that begin in the middle of a run (+tilelink_from=CYCLE): a part of recorder/check, which reads this file. What they must
# have is worked out from the capture of the whole run.

# lines_of FOLDER: the lines of the links, and then the fragments, those of a link in the order of their numbers.
lines_of() { (cd "$1" && cat ./*.link && ls | grep '\.fragment$' | sort -t . -k 1,1 -k 2,2n | xargs cat); }
# Of each beat, whether it is a head; and so many beats of its message are then missing on its channel.
count_beats='
    function has_data(link, channel, opcode) {
        if (channel == "A") return opcode <= (level[link] == "ul" ? 1 : 3)
        if (channel == "B") return opcode <= 3
        if (channel == "C") return opcode == 1 || opcode == 5 || opcode == 7
        return channel == "D" && (opcode == 1 || (opcode == 5 && level[link] == "c"))
    }
    $1 == "link" { level[$2] = $4; width[$2] = $5; next }
    $1 == "fragment" { link = $2 }
    $1 ~ /^[0-9]/ {
        at = link " " $2
        is_head = missing[at] == 0
        if (!is_head) missing[at]--
        else if (has_data(link, $2, $3) && 2 ^ $5 > width[link]) missing[at] = 2 ^ $5 / width[link] - 1
    }
'
# cuts FOLDER: cycles in the middle of bursts, two for each channel that has them, as CYCLE LINK CHANNEL: of the second beat of an
# early burst, and of the last beat of a late one.
cuts() {
    lines_of "$1" | awk "$count_beats"'
        $1 !~ /^[0-9]/ { next }
        is_head { comes_second[at] = 1; next }
        comes_second[at] { second[at, seconds[at]++] = $1; comes_second[at] = 0 }
        missing[at] == 0 { final[at, finals[at]++] = $1 }
        END { for (at in finals) print second[at, int(seconds[at] / 3)] " " at "\n" final[at, int(2 * finals[at] / 3)] " " at }
    '
}
# begun_at CYCLE FOLDER WANTED: what stands in WANTED is the capture of the folder, each channel from its first head on that does
# not come before the cycle.
begun_at() {
    rm -rf "$3"
    mkdir "$3"
    cp "$2"/*.link "$3"
    lines_of "$2" | awk -v from="$1" -v folder="$3" "$count_beats"'
        $1 == "fragment" {
            file = folder "/" $2 "." $3 ".fragment"
            head = $1 " " $2 " " $3 " " ($4 < from && from <= $5 ? from : $4) " " $5
            is_open = 0
        }
        $1 == "end" && is_open { print > file; close(file) }
        $1 ~ /^[0-9]/ && is_head && $1 >= from { has_begun[at] = 1 }
        $1 ~ /^[0-9]/ && has_begun[at] {
            if (!is_open) print head > file
            is_open = 1
            print > file
        }
    '
}
# begin_in_the_middle SIMULATOR: the bench and random beats, from cycles in the middle of bursts on.
begin_in_the_middle() {
    simulator=$1
    run "$simulator" heads "$room/$simulator/heads"
    # The bench has bursts on A, C and D of each cache; random beats have them on A to D of two links, and on A and D of two.
    for of in bench/clean:12 heads/heads:24; do
        whole=$room/$simulator/$(basename "${of%:*}")
        cuts "$whole" > "$room/cuts"
        if [ "$(sort -u "$room/cuts" | wc -l)" -eq "${of#*:}" ]; then pass
        else fail "$simulator, $whole: no burst to cut on a channel: $(tr '\n' ';' < "$room/cuts")"; fi
        for cycle in 0 1 4095 4096 $(sed 's/ .*//' "$room/cuts" | sort -nu); do
            folder=$whole.from.$cycle
            run "$simulator" "${of%/*}" "$folder" "+tilelink_from=$cycle"
            begun_at "$cycle" "$whole" "$room/begun"
            same "$simulator, $(basename "$folder")" "$room/begun" "$folder"
            if [ "${of%/*}" != bench ] || [ -z "$several" ] || ! ls "$folder"/*.fragment > "$room/list" 2>&1; then continue; fi
            if judged "$simulator, $(basename "$folder")" "$room/no.rows" --midway=heads "$bench/bench.topo" "$folder"/*.fragment; then pass
            else fail "$told"; fi
        done
    done
    # Beats before the last reset are no beats of a message after it.
    run "$simulator" heads "$room/$simulator/late" +late
    run "$simulator" heads "$room/$simulator/again" +again +tilelink_from=310
    begun_at 310 "$room/$simulator/late" "$room/begun"
    same "$simulator, two resets" "$room/begun" "$room/$simulator/again"
    # No message is left.
    run "$simulator" heads "$room/$simulator/past" +tilelink_from=9000
    begun_at 9000 "$room/$simulator/heads" "$room/begun"
    same "$simulator, past the last beat" "$room/begun" "$room/$simulator/past"
    told=$(grep -c '^tilelink_recorder: [a-z0-9]*: beats 0, fragments 0: no message began in cycle 9000 or after it$' "$room/$simulator/past.told")
    if [ "$told" -eq 4 ]; then pass; else fail "$simulator, past the last beat: $(head -n 3 "$room/$simulator/past.told")"; fi
    # A stream, in windows of 256 cycles; and the windows without a beat that it has from the cycle on.
    stream=$room/stream.$simulator
    run "$simulator" heads "$room/$simulator/heads.256" "+tilelink_stream=$stream" +tilelink_window=256
    apart "$stream" "$room/$simulator/heads.256"
    run "$simulator" heads "$room/$simulator/heads.256.from" "+tilelink_stream=$stream" +tilelink_window=256 +tilelink_from=4000
    apart "$stream" "$room/$simulator/heads.256.from"
    begun_at 4000 "$room/$simulator/heads.256" "$room/begun"
    same "$simulator, a stream from cycle 4000 on" "$room/begun" "$room/$simulator/heads.256.from"
    run "$simulator" bench "$room/$simulator/late.stream" +cycles=15 "+tilelink_stream=$stream" +tilelink_window=4 +tilelink_from=6
    sort "$stream" > "$room/none.got"
    for link in cpu0 cpu1 dma0; do
        printf 'fragment %s 1 6 7\nfragment %s 2 8 11\nfragment %s 3 12 15\nend\nend\nend\n' $link $link $link
    done | sort > "$room/none.wanted"
    same "$simulator: a stream without a beat, from cycle 6 on" "$room/none.wanted" "$room/none.got"
    # What is no cycle.
    for word in = =nine =12x =-5 =+5 =1_2 =99999999999999 =18446744073709551617 _=5; do
        rm -rf "$room/stopped.cycle"
        run "$simulator" bench "$room/stopped.cycle" +cycles=40 "+tilelink_from$word"
        cp "$room/stopped.cycle.told" "$room/stopped.told"
        stops "$simulator" "+tilelink_from$word" cpu0 0 "+tilelink_from=CYCLE is .*: change the recorder.s parameters"
        echo 'fragment cpu0 0 0 4095' > "$room/stopped.wanted"
        same "$simulator, +tilelink_from$word" "$room/stopped.wanted" "$room/stopped.cycle/cpu0.0.fragment"
    done
}

# count_with_unknown_bits: by Icarus. Before a channel is recorded only what counts its beats must be known.
count_with_unknown_bits() {
    printf 'fragment x0 0 21 4095\n22 A 4 0 3 1 1000 ff 0\nend\n' > "$room/counted.wanted"
    for field in A_param A_source A_address A_mask A_corrupt B_param B_address B_mask C_param C_source C_address C_corrupt \
        D_param D_source D_sink D_denied D_corrupt E_sink; do
        run icarus unknown "$room/counted" "+unknown=$field" +tilelink_from=21
        same "$field before cycle 21" "$room/counted.wanted" "$room/counted/x0.0.fragment"
        if grep -q ERROR "$room/counted.told"; then fail "$field before cycle 21: $(head -n 3 "$room/counted.told")"; else pass; fi
    done
    run icarus unknown "$room/counted" +again +tilelink_from=21
    same "a reset before cycle 21" "$room/counted.wanted" "$room/counted/x0.0.fragment"
    for field in A_beat A_opcode A_size B_beat C_opcode C_size D_opcode D_size E_beat cycle; do
        for from in '21 21' '5000 0'; do
            at=20
            told=${field#*_}
            case $field in
            *_beat) told="valid or ready" ;;
            cycle) at=x told="the cycle" ;;
            esac
            run icarus unknown "$room/counted" "+unknown=$field" "+tilelink_from=${from% *}"
            cp "$room/counted.told" "$room/stopped.told"
            stops icarus "$field before cycle ${from% *}" x0 $at ".*$told has X or Z bits"
            echo "fragment x0 0 ${from#* } 4095" > "$room/unknown.wanted"
            same "$field before cycle ${from% *}" "$room/unknown.wanted" "$room/counted/x0.0.fragment"
        done
    done
}

# steps_of_midway: the steps of docs/MIDWAY.md are among those of README.md.
steps_of_midway() {
    sed -n '/^## With the recorder/,/^## What goes/s/^    //p' "$here/../docs/MIDWAY.md" | sort -u > "$room/steps"
    sed 's/^ *//' "$here/README.md" | sort -u | comm -13 - "$room/steps" > "$room/strange"
    if [ -s "$room/steps" ] && [ ! -s "$room/strange" ]; then pass; else fail "docs/MIDWAY.md has other steps: $(head -n 3 "$room/strange")"; fi
}
