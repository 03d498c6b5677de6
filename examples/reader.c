/* Seals and opens cards over real files, as a model for other programs.

       cc reader.c $(pkg-config --cflags --libs vespruldo) -o reader
       reader seal BOOK CLASS DRAWER TEXT CARD
       reader open BOOK CLASS CARD

   The tool makes BOOK and DRAWER (`cards help book`, `cards help start`).
   TEXT is sealed without associated data; CARD must not be there yet. What is
   opened goes to standard output. The exit status is the number of the refusal,
   or 255 for all else: a command line that is not understood, a drawer that
   somebody is drawing from, a file that could not be read or written.

   These are the files of the office's tool `cards`, and so is the lock: while a
   number is drawn, there is a folder DRAWER.next, which only one can make. If a
   run is killed, the folder can be removed once none runs: no number has then
   been used that the drawer still has. */

#define _POSIX_C_SOURCE 200809L

#include <errno.h>
#include <fcntl.h>
#include <stdio.h>
#include <stdlib.h>
#include <string.h>
#include <sys/stat.h>
#include <unistd.h>
#include <vespruldo.h>

#define FAILED 255
#define NAME_ROOM 4096

/* Each has room for one byte more than is allowed: a file that is too long is
   read so far, and then refused by its length. */
static uint8_t book[2 + 18 * 65535 + 1];
static uint8_t text[VESPRULDO_CARD_TEXT_MAX + 1];
static uint8_t card[VESPRULDO_CARD_TEXT_MAX + VESPRULDO_CARD_EXTRA + 1];

static uint32_t failed(const char *name)
{
    fprintf(stderr, "reader: %s: %s\n", name, strerror(errno));
    return FAILED;
}

/* Tells a refusal, if it is one, and hands the number on. */
static uint32_t told(uint32_t number, const char *name)
{
    if (number != VESPRULDO_DONE)
        fprintf(stderr, "reader: refused %u %s: %s\n", (unsigned)number,
                vespruldo_words(number), name);
    return number;
}

static uint32_t read_file(const char *name, uint8_t *bytes, size_t most,
                          size_t *len)
{
    FILE *file = fopen(name, "rb");
    if (file == NULL)
        return failed(name);
    *len = fread(bytes, 1, most, file);
    uint32_t number = ferror(file) ? failed(name) : VESPRULDO_DONE;
    fclose(file);
    return number;
}

/* Makes a new file, and replaces none. Unless the run is killed, it is on the
   disk, whole, or removed. */
static uint32_t write_new(const char *name, mode_t mode, const uint8_t *bytes,
                          size_t len)
{
    int file = open(name, O_WRONLY | O_CREAT | O_EXCL, mode);
    if (file < 0)
        return failed(name);
    errno = ENOSPC; /* which it is if fewer bytes are written */
    int bad = write(file, bytes, len) != (ssize_t)len || fsync(file) < 0;
    if (close(file) == 0 && !bad)
        return VESPRULDO_DONE;
    uint32_t number = failed(name);
    unlink(name);
    return number;
}

/* A file is on the disk under its name when its folder is. */
static int sync_folder(const char *name)
{
    char folder[NAME_ROOM];
    snprintf(folder, sizeof folder, "%s", name);
    char *slash = strrchr(folder, '/');
    snprintf(slash == NULL ? folder : slash + 1, 2, ".");
    int file = open(folder, O_RDONLY);
    if (file < 0)
        return -1;
    int result = fsync(file);
    close(file);
    return result;
}

/* Has the drawer's next state in the file's place, with its group and rights
   and, for root, its owner: whatever happens, there is either the old one or
   the new one, whole. */
static uint32_t replace_drawer(const char *drawer, const char *next,
                               const struct stat *status,
                               vespruldo_drawer state)
{
    vespruldo_stored stored = vespruldo_drawer_store(state);
    uint32_t number = write_new(next, 0600, stored.bytes, sizeof stored.bytes);
    if (number == VESPRULDO_DONE &&
        ((chown(next, status->st_uid, status->st_gid) < 0 &&
          chown(next, (uid_t)-1, status->st_gid) < 0) ||
         chmod(next, status->st_mode & 0777) < 0 || rename(next, drawer) < 0)) {
        number = failed(drawer);
        unlink(next);
    }
    if (number == VESPRULDO_DONE && sync_folder(drawer) < 0)
        number = failed(drawer);
    return number;
}

/* Draws a nonce, to be used when the next state has taken this one's place. Of
   a link, or of one of two names, the other would lead to the old state: from
   such a drawer nothing is drawn. */
static uint32_t draw(const char *drawer, const char *next, uint8_t *nonce)
{
    uint8_t bytes[VESPRULDO_DRAWER_BYTES + 1];
    size_t len;
    struct stat status;
    if (lstat(drawer, &status) < 0)
        return failed(drawer);
    if (!S_ISREG(status.st_mode) || status.st_nlink != 1) {
        fprintf(stderr, "reader: %s: a link, or no file\n", drawer);
        return FAILED;
    }
    uint32_t number = read_file(drawer, bytes, sizeof bytes, &len);
    if (number != VESPRULDO_DONE)
        return number;
    vespruldo_loaded loaded = vespruldo_drawer_load(bytes, len);
    if (loaded.number != VESPRULDO_DONE)
        return told(loaded.number, drawer);
    vespruldo_drawn drawn = vespruldo_drawer_draw(loaded.drawer);
    if (drawn.number != VESPRULDO_DONE)
        return told(drawn.number, drawer);
    memcpy(nonce, drawn.bytes, sizeof drawn.bytes);
    return replace_drawer(drawer, next, &status, drawn.next);
}

/* Draws while nobody else does. */
static uint32_t next_nonce(const char *drawer, uint8_t *nonce)
{
    char folder[NAME_ROOM + 8], next[NAME_ROOM + 16];
    snprintf(folder, sizeof folder, "%s.next", drawer);
    snprintf(next, sizeof next, "%s/state", folder);
    errno = ENAMETOOLONG;
    if (strlen(drawer) >= NAME_ROOM || mkdir(folder, 0700) < 0) {
        if (errno == EEXIST)
            fprintf(stderr, "reader: somebody is drawing, or was killed:\n");
        return failed(folder);
    }
    uint32_t number = draw(drawer, next, nonce);
    if (rmdir(folder) < 0 && number == VESPRULDO_DONE)
        number = failed(folder);
    return number;
}

static uint32_t find_key(const char *name, const char *digits,
                         const uint8_t **key)
{
    size_t len;
    char *end;
    unsigned long class_number = strtoul(digits, &end, 10);
    errno = EINVAL;
    if (digits[0] < '0' || digits[0] > '9' || *end != '\0' ||
        class_number > UINT16_MAX)
        return failed(digits);
    uint32_t number = read_file(name, book, sizeof book, &len);
    if (number != VESPRULDO_DONE)
        return number;
    vespruldo_found found = vespruldo_key_find(
        book, len, vespruldo_no_book, sizeof vespruldo_no_book,
        (uint16_t)class_number);
    *key = vespruldo_found_key(found, book, vespruldo_no_book);
    return told(found.number, name);
}

static uint32_t seal(const uint8_t *key, const char *drawer,
                     const char *text_name, const char *card_name)
{
    uint8_t nonce[VESPRULDO_NONCE_BYTES];
    size_t len;
    uint32_t number = read_file(text_name, text, sizeof text, &len);
    if (number == VESPRULDO_DONE)
        number = next_nonce(drawer, nonce);
    if (number != VESPRULDO_DONE)
        return number;
    number = vespruldo_card_seal(key, VESPRULDO_KEY_BYTES, nonce, sizeof nonce,
                                 NULL, 0, text, len, card, sizeof card);
    if (number != VESPRULDO_DONE)
        return told(number, text_name);
    number = write_new(card_name, 0666, card, len + VESPRULDO_CARD_EXTRA);
    if (number == VESPRULDO_DONE && sync_folder(card_name) < 0) {
        number = failed(card_name);
        unlink(card_name);
    }
    return number;
}

static uint32_t open_card(const uint8_t *key, const char *name)
{
    size_t len;
    uint32_t number = read_file(name, card, sizeof card, &len);
    if (number != VESPRULDO_DONE)
        return number;
    number = vespruldo_card_open(key, VESPRULDO_KEY_BYTES, NULL, 0, card, len,
                                 text, sizeof text);
    if (number != VESPRULDO_DONE)
        return told(number, name);
    size_t text_len = len - VESPRULDO_CARD_EXTRA;
    if (fwrite(text, 1, text_len, stdout) != text_len || fflush(stdout) != 0)
        return failed("standard output");
    return VESPRULDO_DONE;
}

int main(int count, char **words)
{
    const uint8_t *key = NULL;
    int seals = count == 7 && strcmp(words[1], "seal") == 0;
    int opens = count == 5 && strcmp(words[1], "open") == 0;
    if (!seals && !opens) {
        fprintf(stderr, "usage: reader seal BOOK CLASS DRAWER TEXT CARD\n"
                        "       reader open BOOK CLASS CARD\n");
        return FAILED;
    }
    uint32_t number = find_key(words[2], words[3], &key);
    if (number == VESPRULDO_DONE)
        number = seals ? seal(key, words[4], words[5], words[6])
                       : open_card(key, words[4]);
    return (int)number;
}
