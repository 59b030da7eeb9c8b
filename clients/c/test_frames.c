/* The frames of ../frames.txt: `cc -o test_frames test_frames.c -lpthread && ./test_frames`. */
#include "ssikvd.c"

#include <assert.h>

static size_t from_hex(const char *word, char *into) {
    size_t size = 0;
    unsigned byte;
    for (; strcmp(word, "-") && sscanf(word, "%2x", &byte) == 1; word += 2)
        into[size++] = (char)byte;
    return size;
}

/* The words of a line, parted by spaces. */
static int words_of(char *line, char *words[16]) {
    int count = 0;
    for (char *word = strtok(line, " \n"); word && count < 16; word = strtok(NULL, " \n"))
        words[count++] = word;
    return count;
}

static void check_request(char **words, int count) {
    char request[1000], due[1000], data[8][300];
    bytes parts[8];
    for (int part = 0; part < count - 2; part++)
        parts[part] = (bytes){data[part], from_hex(words[part], data[part])};
    size_t size = from_hex(words[count - 1], due);
    assert(encode(request, count - 2, parts) == size && !memcmp(request, due, size));
}

static void check_reply(char **words, int count) {
    char data[1000], due[1000];
    size_t size = from_hex(words[0], data);
    struct reply reply;
    for (size_t part = 0; part < size; part++)
        assert(decode(data, part, &reply) == 0);
    memcpy(data + size, "+OK\r\n", 5);
    assert(decode(data, size + 5, &reply) == (long)size);
    if (!strcmp(words[2], "number")) {
        assert(reply.kind == ':' && reply.number == strtoll(words[3], NULL, 10));
    } else if (!strcmp(words[2], "none")) {
        assert(reply.kind == '$' && !reply.data);
    } else if (!strcmp(words[2], "pairs")) {
        struct ssikvd_range range = {.page = reply.data, .size = reply.size};
        assert(reply.kind == '*' && reply.number == count - 3);
        for (int at = 3; at < count; at++) {
            bytes part = take_part(&range);
            size_t length = from_hex(words[at], due);
            assert(part.size == length && !memcmp(part.data, due, length));
        }
    } else {
        size_t length = from_hex(words[3], due);
        assert(reply.size == length && !memcmp(reply.data, due, length));
    }
}

static void check_keys(void) {
    unsigned char into[256], key[256], all[256];
    memset(key, 'a', sizeof key);
    memset(all, 0xff, sizeof all);
    assert(ssikvd_after(ssikvd_text("a"), into) == 2 && !memcmp(into, "a", 2));
    assert(ssikvd_after((bytes){key, 256}, into) == 256 && into[255] == 'b');
    assert(ssikvd_after((bytes){all, 256}, into) == 0);
    all[0] = 'a';
    assert(ssikvd_after((bytes){all, 256}, into) == 1 && into[0] == 'b');
    assert(ssikvd_end_of_prefix(ssikvd_text("user:"), into) == 5 && into[4] == ';');
    assert(ssikvd_end_of_prefix(ssikvd_text(""), into) == 0);
}

int main(void) {
    FILE *rows = fopen("../frames.txt", "r");
    char line[1000], data[1000], *words[16];
    struct reply reply;
    int checked = 0;
    assert(rows);
    while (fgets(line, sizeof line, rows)) {
        int count = words_of(line, words);
        checked += count > 0 && words[0][0] != '#';
        if (count > 2 && !strcmp(words[0], "request"))
            check_request(words + 1, count - 1);
        else if (count > 2 && !strcmp(words[0], "reply"))
            check_reply(words + 1, count - 1);
        else if (count == 2 && !strcmp(words[0], "bad"))
            assert(decode(data, from_hex(words[1], data), &reply) == -1);
    }
    memset(data, 'a', sizeof data);
    data[0] = '+';
    assert(decode(data, sizeof data, &reply) == -1);
    assert(checked > 15);
    check_keys();
    return 0;
}
