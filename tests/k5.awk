# Prints the 256 lengths of Table K.5 from T.81's own form, the counts and values of K.3.3.2:
# 16 rows, run 0 to 15, of 16 numbers, size 0 to 15. Run it as: awk -f tests/k5.awk

function digit(c) {
    return index("0123456789ABCDEF", c) - 1
}

function hex(word) {
    return 16 * digit(substr(word, 1, 1)) + digit(substr(word, 2, 1))
}

BEGIN {
    # how many codes have 1, 2, ... 16 bits
    split("00 02 01 03 03 02 04 03 05 05 04 04 00 00 01 7D", counts, " ")

    # their run/size values, in order of increasing code length
    split("01 02 03 00 04 11 05 12 " \
          "21 31 41 06 13 51 61 07 " \
          "22 71 14 32 81 91 A1 08 " \
          "23 42 B1 C1 15 52 D1 F0 " \
          "24 33 62 72 82 09 0A 16 " \
          "17 18 19 1A 25 26 27 28 " \
          "29 2A 34 35 36 37 38 39 " \
          "3A 43 44 45 46 47 48 49 " \
          "4A 53 54 55 56 57 58 59 " \
          "5A 63 64 65 66 67 68 69 " \
          "6A 73 74 75 76 77 78 79 " \
          "7A 83 84 85 86 87 88 89 " \
          "8A 92 93 94 95 96 97 98 " \
          "99 9A A2 A3 A4 A5 A6 A7 " \
          "A8 A9 AA B2 B3 B4 B5 B6 " \
          "B7 B8 B9 BA C2 C3 C4 C5 " \
          "C6 C7 C8 C9 CA D2 D3 D4 " \
          "D5 D6 D7 D8 D9 DA E1 E2 " \
          "E3 E4 E5 E6 E7 E8 E9 EA " \
          "F1 F2 F3 F4 F5 F6 F7 F8 " \
          "F9 FA", values, " ")

    next_value = 1
    for (length_of_code = 1; length_of_code <= 16; length_of_code++)
        for (code = hex(counts[length_of_code]); code > 0; code--)
            lengths[hex(values[next_value++])] = length_of_code

    for (run = 0; run < 16; run++) {
        row = ""
        for (size = 0; size < 16; size++)
            row = row (size ? " " : "") (lengths[16 * run + size] + 0)
        print row
    }
}
