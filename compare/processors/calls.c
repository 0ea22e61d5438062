/* Makes the same calls of the library on any processor, over lines, words, trees and keys of a generator with a fixed
 * start, and prints one sum over all that they answer and leave. It needs no C library. */
typedef unsigned char u8;
typedef unsigned long u64;
typedef unsigned long usize;

u64 rissemat_words(const u8 *line, usize line_len, u8 *out, usize out_len);
u64 rissemat_quote(const u8 *words, usize words_len, u8 *out, usize out_len);
u64 rissemat_fresh(u8 *state, usize state_len, u8 *slots, usize slots_len);
u64 rissemat_fresh_with(u8 profile, u8 *state, usize state_len, u8 *slots, usize slots_len);
u64 rissemat_key(u8 *state, usize state_len, u8 *slots, usize slots_len, const u8 *prompt, usize prompt_len, u8 key,
                 u8 *line, usize line_len, u8 *screen, usize screen_len);
u64 rissemat_history_add(u8 *state, usize state_len, u8 *slots, usize slots_len, const u8 *text, usize text_len);
u64 rissemat_history_forget(u8 *state, usize state_len, u8 *slots, usize slots_len, usize k);
u64 rissemat_tree(const u8 *image, usize image_len);
u64 rissemat_parse(const u8 *image, usize image_len, const u8 *line, usize line_len, u8 *out, usize out_len);
u64 rissemat_help(const u8 *image, usize image_len, const u8 *line, usize line_len, u8 *out, usize out_len);
u64 rissemat_run(const u8 *image, usize image_len, const u8 *line, usize line_len, u8 *out, usize out_len);

/* What machine.c or the C library has. */
int putchar(int c);

/* base_tree and fs_tree, the images of trees/. */
#include "trees.h"

static u64 seed = 0x9E3779B97F4A7C15ul;
static u64 sum = 0xCBF29CE484222325ul;

static u8 line[2048], words[8192], image[4096], out[65536];
/* A session with the keys of each profile, and buffers in which one is begun that has to be refused now and then. */
static u8 states[2][266], slots[2][25600], typed[255], screen[4096];
static u8 spare_state[267], spare_slots[25601];

/* The next number of the generator, below n. Where two are taken C says which comes first, so that compilers do the same. */
static usize below(usize n) {
    seed ^= seed << 13;
    seed ^= seed >> 7;
    seed ^= seed << 17;
    return (seed >> 8) % n;
}

static void count_bytes(const u8 *bytes, usize n) {
    for (usize i = 0; i < n; i++) {
        sum ^= bytes[i];
        sum *= 0x100000001B3ul;
    }
}

/* Takes an answer into the sum and hands it on. */
static u64 count(u64 answer) {
    for (int i = 0; i < 8; i++) {
        u8 byte = (u8)(answer >> 8 * i);
        count_bytes(&byte, 1);
    }
    return answer;
}

static const char *const parts[] = {
    "help", "exit", "clear", "log", "ls", "cat", "cp", "mv", "rm", "touch", "mkdir", "uname",
    "-l", "-la", "--all", "--level", "--level=info", "-n", "--", "-", "x=y", "/", "..", "  ", "\t", "\"a b\"", "\\\"",
    "caf\xC3\xA9", "\xE4\xB8\xAD\xE6\x96\x87", "\xF0\x9F\x98\x80", "\xC2\xA0", "\xFF",
};

/* A line of up to 7 parts, some with a byte of any kind after them, some longer than a line may be. */
static usize make_line(void) {
    usize n = 0;
    for (usize left = below(8); left > 0; left--) {
        for (const char *part = parts[below(sizeof parts / sizeof *parts)]; *part; part++) {
            line[n++] = (u8)*part;
        }
        if (below(9)) {
            line[n++] = ' ';
        }
        if (!below(23)) {
            line[n++] = (u8)below(256);
        }
    }
    if (!below(61)) {
        while (n < 1030) {
            line[n++] = 'a';
        }
    }
    return n;
}

/* Splits the line; its words, some of them damaged, are then quoted. */
static void split(usize n, usize room) {
    u64 answer = count(rissemat_words(line, n, out, room));
    count_bytes(out, room);
    if (answer >> 32) {
        return;
    }
    usize size = answer & 0xFFFFFFFFul;
    for (usize i = 0; i < size; i++) {
        words[i] = out[i];
    }
    if (size && !below(7)) {
        usize place = below(size);
        words[place] ^= (u8)below(256);
    }
    count(rissemat_quote(words, size, out, room));
    count_bytes(out, room);
}

/* Parses and runs the line, and asks for its help, under one of the trees, sometimes with a byte changed. */
static void command(usize n, usize room) {
    int fs = below(2) == 1;
    const u8 *tree = fs ? fs_tree : base_tree;
    usize size = fs ? sizeof fs_tree : sizeof base_tree;
    if (!below(6)) {
        for (usize i = 0; i < size; i++) {
            image[i] = tree[i];
        }
        usize place = below(size);
        image[place] = (u8)below(256);
        tree = image;
    }
    count(rissemat_tree(tree, size));
    count(rissemat_parse(tree, size, line, n, out, room));
    count_bytes(out, room);
    count(rissemat_help(tree, size, line, n, out, sizeof out));
    count_bytes(out, 4096);
    count(rissemat_run(tree, size, line, n, out, sizeof out));
    count_bytes(out, 4096);
}

/* Presses a key in the session with a profile. */
static void press_key(usize profile, u8 key) {
    usize room = below(17) ? sizeof screen : below(32);
    count(rissemat_key(states[profile], sizeof *states, slots[profile], sizeof *slots, (const u8 *)"axvisor:$ ", 10, key,
                       typed, sizeof typed, screen, room));
    count_bytes(states[profile], sizeof *states);
    count_bytes(typed, 32);
    count_bytes(screen, 64);
}

/* Presses a key: half of them letters, the others Enter, backspace, arrows in parts, any byte. */
static void press(usize profile) {
    static const u8 keys[] = {13, 0x7F, 27, '[', 'A', 'B', 'C', 'D'};
    u8 key = (u8)('a' + below(26));
    if (below(2)) {
        key = below(5) ? keys[below(sizeof keys)] : (u8)below(256);
    }
    press_key(profile, key);
}

/* Presses a control sequence: none, one or up to 17 bytes that go on, then one that ends it, now and then any byte. */
static void press_sequence(usize profile) {
    static const u8 first[] = {'1', '3', '4', '7', '8', '0', ';', ' '};
    static const u8 last[] = {'A', 'B', 'C', 'D', 'H', 'F', '~', '~'};
    press_key(profile, 27);
    press_key(profile, '[');
    if (below(3)) {
        press_key(profile, first[below(sizeof first)]);
    }
    for (usize left = below(4) ? 0 : below(17); left > 0; left--) {
        press_key(profile, (u8)(0x20 + below(32)));
    }
    press_key(profile, below(9) ? last[below(sizeof last)] : (u8)below(256));
}

/* Adds a text to the history of the session with a profile. */
static void add(usize profile, const u8 *text, usize n) {
    count(rissemat_history_add(states[profile], sizeof *states, slots[profile], sizeof *slots, text, n));
}

/* Forgets an entry of it. */
static void forget(usize profile, usize k) {
    count(rissemat_history_forget(states[profile], sizeof *states, slots[profile], sizeof *slots, k));
    count_bytes(states[profile], sizeof *states);
}

/* Adds the line. Now and then an entry is forgotten before that, which may not be there, or after it one between two
 * equal ones. */
static void remember(usize profile, usize n) {
    if (!below(3)) {
        forget(profile, below(9) ? below(states[profile][261] + 2ul) : seed);
    }
    add(profile, line, n);
    if (!below(5)) {
        add(profile, (const u8 *)"x", 1);
        add(profile, line, n);
        forget(profile, states[profile][261] - 2ul);
    }
}

/* Begins a session with any profile, most of the two that are there, and with buffers of about the lengths that they have to have. */
static void begin(void) {
    u8 profile = (u8)(below(4) ? below(2) : below(256));
    usize state_len = 265 + below(3), slots_len = 25599 + below(3);
    count(rissemat_fresh_with(profile, spare_state, state_len, spare_slots, slots_len));
    count_bytes(spare_state, sizeof spare_state);
}

int main(void) {
    count(rissemat_fresh(states[0], sizeof *states, slots[0], sizeof *slots));
    count(rissemat_fresh_with(1, states[1], sizeof *states, slots[1], sizeof *slots));
    for (int round = 0; round < ROUNDS; round++) {
        usize profile = round % 2;
        usize n = make_line();
        usize room = below(5) ? 4096 : below(64);
        for (usize i = 0; i < room; i++) {
            out[i] = 0xAA;
        }
        split(n, room);
        command(n, room);
        begin();
        for (int i = 0; i < 24; i++) {
            press(profile);
        }
        for (int i = 0; i < 3; i++) {
            press_sequence(profile);
        }
        remember(profile, n);
        count_bytes(slots[profile], round % 200 < 2 ? sizeof *slots : 512);
    }
    for (int i = 60; i >= 0; i -= 4) {
        putchar("0123456789abcdef"[sum >> i & 15]);
    }
    putchar('\n');
    return 0;
}
