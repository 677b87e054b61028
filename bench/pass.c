// What `cyber pass` does to the record of `largest.py`, by hand: lists of entries of the same
// sizes, and the same two files. It knows that there is one component, which passes each message
// on, so it has no croutines, no buffers and no scan. It takes that one record alone, of one
// channel and one chunk, and checks little. Words: RECORD OUT TRACE FROM TO.
#include <fcntl.h>
#include <stdint.h>
#include <stdio.h>
#include <stdlib.h>
#include <string.h>
#include <sys/stat.h>
#include <unistd.h>

enum { HEADER_END = 2064, LONGEST_BODY = 200000000 };
static const uint64_t LONGEST_TIME = 20000000000;

typedef struct {
  uint32_t channel, seq;
  uint64_t time, has_whole;
  int64_t whole;
  uint32_t has_origin, origin;
} Token;
typedef struct {
  uint64_t has_out, time, has_whole;
  int64_t whole;
  uint32_t has_origin, origin;
} Out;
typedef struct {
  uint64_t position, tail, readers;
  Token tuple[4];
  Out out;
} Call;
typedef struct {
  uint64_t role;
  Token token;
} Arrival;
typedef struct {
  uint64_t time, content;
  uint32_t length;
} Message;
typedef struct {
  uint8_t *at;
} Text;

// The sizes of these in the program.
_Static_assert(sizeof(Token) == 40 && sizeof(Out) == 40, "a message");
_Static_assert(sizeof(Call) == 224 && sizeof(Arrival) == 48, "a call and an arrival");

static void check(int holds, const char *what) {
  if (!holds) {
    fprintf(stderr, "%s\n", what);
    exit(1);
  }
}

static void *room(size_t bytes) {
  void *found = malloc(bytes);
  check(found != NULL, "out of memory");
  return found;
}

static uint64_t varint(const uint8_t **at) {
  uint64_t value = 0;
  for (int shift = 0;; shift += 7) {
    uint8_t byte = *(*at)++;
    value |= (uint64_t)(byte & 127) << shift;
    if (byte < 128) return value;
  }
}

static void put_varint(Text *text, uint64_t value) {
  for (; value >= 128; value >>= 7) *text->at++ = (uint8_t)value | 128;
  *text->at++ = (uint8_t)value;
}

static void put_bytes(Text *text, const void *bytes, size_t length) {
  memcpy(text->at, bytes, length);
  text->at += length;
}

static void put_text(Text *text, const char *words) { put_bytes(text, words, strlen(words)); }

static void put_decimal(Text *text, uint64_t value) {
  char digits[20], *first = digits + 20;
  do *--first = '0' + value % 10; while (value /= 10);
  put_bytes(text, first, digits + 20 - first);
}

static void put_number(Text *text, uint32_t field, uint64_t value) {
  put_varint(text, 8 * field);
  put_varint(text, value);
}

static void put_block(Text *text, uint32_t field, const void *bytes, size_t length) {
  put_varint(text, 8 * field + 2);
  put_varint(text, length);
  put_bytes(text, bytes, length);
}

static size_t size_of(uint64_t value) {
  size_t size = 1;
  while (value >>= 7) size++;
  return size;
}

// The messages of all chunks; each is of the channel FROM.
static Message *read_messages(const uint8_t *file, size_t size, const char *from, size_t *count) {
  Message *messages = room(sizeof *messages * (size / 2 + 1));
  for (size_t at = HEADER_END; at < size;) {
    uint32_t kind;
    uint64_t length;
    memcpy(&kind, file + at, 4);
    memcpy(&length, file + at + 8, 8);
    const uint8_t *next = file + at + 16, *end = next + length;
    while (kind == 2 && next < end) {
      check(*next++ == 10, "not a message");
      const uint8_t *last = next;
      uint64_t bytes = varint(&last);
      last += bytes;
      varint(&next);
      Message message = {0};
      while (next < last) {
        uint64_t tag = varint(&next);
        if (tag == 16) {
          message.time = varint(&next);
          continue;
        }
        uint64_t part = varint(&next);
        if (tag == 10) {
          check(part == strlen(from) && memcmp(next, from, part) == 0, "another channel");
        } else {
          check(tag == 26, "another field");
          message.content = next - file;
          message.length = part;
        }
        next += part;
      }
      messages[(*count)++] = message;
    }
    at += 16 + length;
  }
  return messages;
}

// The play list: each message with its whole number.
static Token *play_list(const uint8_t *file, const Message *messages, size_t count) {
  Token *list = room(sizeof *list * count);
  for (size_t k = 0; k < count; k++) {
    check(k == 0 || messages[k - 1].time <= messages[k].time, "not in order");
    Token token = {0, k + 1, messages[k].time, 0, 0, 1, k};
    const uint8_t *next = file + messages[k].content, *end = next + messages[k].length;
    while (next < end) {
      check(varint(&next) == 8, "not a whole number");
      uint64_t value = varint(&next);
      token.has_whole = 1;
      token.whole = (int64_t)(value >> 1) ^ -(int64_t)(value & 1);
    }
    list[k] = token;
  }
  return list;
}

// Plays the list: each message comes onto the tape and arrives, the component is called, and its
// output comes onto the tape.
static void run(const Token *list, size_t count, Token *tape, Arrival *arrivals, Call *calls) {
  for (size_t k = 0; k < count; k++) {
    Token token = list[k];
    tape[2 * k] = token;
    arrivals[k] = (Arrival){0, token};
    Out out = {1, token.time, token.has_whole, token.whole, token.has_origin, token.origin};
    calls[k].position = calls[k].tail = k + 1;
    calls[k].readers = 1;
    calls[k].tuple[0] = token;
    calls[k].out = out;
    tape[2 * k + 1] = token;
    tape[2 * k + 1].channel = 1;
  }
}

static Text begin_section(Text *text) {
  Text head = *text;
  text->at += 16;
  return head;
}

static void end_section(Text head, const Text *text, uint32_t kind) {
  uint64_t length = text->at - head.at - 16;
  memset(head.at, 0, 16);
  memcpy(head.at, &kind, 4);
  memcpy(head.at + 8, &length, 8);
}

// An entry of the index, which has the fields of its kind in a block.
static void put_entry(Text *index, uint32_t kind, uint64_t place, uint32_t field,
                      const uint8_t *fields, Text end) {
  uint8_t bytes[5000];
  Text entry = {bytes};
  put_number(&entry, 1, kind);
  put_number(&entry, 2, place);
  put_block(&entry, field, fields, end.at - fields);
  put_block(index, 1, bytes, entry.at - bytes);
}

static void put_message(Text *text, const char *name, const Token *token, const uint8_t *content,
                        uint32_t length) {
  size_t named = strlen(name);
  put_varint(text, 10);
  size_t sizes = size_of(named) + size_of(token->time) + size_of(length);
  put_varint(text, 3 + sizes + named + length);
  put_block(text, 1, name, named);
  put_number(text, 2, token->time);
  put_block(text, 3, content, length);
}

// The record of the tape: its bytes begin where the given ones do, and end where this text does.
static Text record_of(uint8_t *bytes, const char **names, const uint8_t *file,
                      const Message *messages, const Token *tape, size_t count) {
  uint64_t begin = UINT64_MAX, end = 0, raw = 0;
  for (size_t k = 0; k < count; k++) {
    begin = tape[k].time < begin ? tape[k].time : begin;
    end = tape[k].time > end ? tape[k].time : end;
    raw += messages[tape[k].origin].length;
  }
  memset(bytes, 0, HEADER_END);
  Text text = {bytes + HEADER_END}, fields;
  uint8_t entries[10000], kept[5000];
  Text index = {entries};
  for (int channel = 0; channel < 2; channel++) {
    uint64_t place = text.at - bytes;
    Text head = begin_section(&text);
    put_block(&text, 1, names[channel], strlen(names[channel]));
    put_block(&text, 2, "", 0);
    put_block(&text, 3, "", 0);
    end_section(head, &text, 4);
    fields.at = kept;
    put_number(&fields, 1, count / 2);
    put_block(&fields, 2, names[channel], strlen(names[channel]));
    put_block(&fields, 3, "", 0);
    put_block(&fields, 4, "", 0);
    put_entry(&index, 4, place, 101, kept, fields);
  }
  uint64_t numbers[] = {begin, end, count, raw}, place = text.at - bytes;
  Text head = begin_section(&text);
  for (int k = 0; k < 4; k++) put_number(&text, k + 1, numbers[k]);
  end_section(head, &text, 1);
  fields.at = kept;
  put_number(&fields, 1, count);
  put_number(&fields, 2, begin);
  put_number(&fields, 3, end);
  put_number(&fields, 4, raw);
  put_entry(&index, 1, place, 102, kept, fields);
  place = text.at - bytes;
  head = begin_section(&text);
  for (size_t k = 0; k < count; k++) {
    const Message *message = &messages[tape[k].origin];
    const uint8_t *content = file + message->content;
    put_message(&text, names[tape[k].channel], &tape[k], content, message->length);
  }
  end_section(head, &text, 2);
  fields.at = kept;
  put_number(&fields, 1, count);
  put_entry(&index, 2, place, 103, kept, fields);
  place = text.at - bytes;
  head = begin_section(&text);
  put_bytes(&text, entries, index.at - entries);
  end_section(head, &text, 3);
  uint64_t length = text.at - bytes;
  uint64_t all[] = {1,   0,     0,      LONGEST_TIME, 0, place, 1, 2, begin,
                    end, count, length, 1,            LONGEST_BODY, 0};
  Text front = {bytes};
  head = begin_section(&front);
  for (int k = 0; k < 15; k++) put_number(&front, k + 1, all[k]);
  end_section(head, &front, 0);
  return text;
}

// The trace, likewise.
static Text trace_of(uint8_t *bytes, const char **names, const Arrival *arrivals,
                     const Call *calls, const Token *tape, size_t count) {
  Text text = {bytes};
  put_text(&text, "cyber-trace 1\nplayed ");
  put_decimal(&text, count);
  put_text(&text, " shadowed 0\ncomponent \"pass\"\nroles ");
  for (size_t k = 0; k < count; k++) *text.at++ = '0' + arrivals[k].role;
  put_text(&text, "\n");
  for (size_t k = 0; k < count; k++) {
    const Call *call = &calls[k];
    put_bytes(&text, "call ", 5);
    put_decimal(&text, call->position);
    put_bytes(&text, "/", 1);
    put_decimal(&text, call->tail);
    put_bytes(&text, " ", 1);
    put_decimal(&text, call->tuple[0].seq);
    put_bytes(&text, " ", 1);
    put_decimal(&text, k + 1);
    put_bytes(&text, "@", 1);
    put_decimal(&text, call->out.time);
    if (call->out.has_whole) {
      int64_t whole = call->out.whole;
      put_bytes(&text, "=-", whole < 0 ? 2 : 1);
      put_decimal(&text, whole < 0 ? -(uint64_t)whole : (uint64_t)whole);
    }
    put_bytes(&text, "\n", 1);
  }
  put_text(&text, "end DATA_WAIT next ");
  put_decimal(&text, count + 1);
  put_text(&text, "\n");
  for (size_t k = 0; k < 2 * count; k++) {
    const char *name = names[tape[k].channel];
    put_bytes(&text, "tape \"", 6);
    put_bytes(&text, name, strlen(name));
    put_bytes(&text, "\" ", 2);
    put_decimal(&text, tape[k].seq);
    put_bytes(&text, "\n", 1);
  }
  return text;
}

static uint8_t *read_file(const char *name, size_t *size) {
  int from = open(name, O_RDONLY);
  struct stat status;
  check(from >= 0 && fstat(from, &status) == 0, "no such file");
  uint8_t *file = room(status.st_size);
  check(read(from, file, status.st_size) == status.st_size, "not read");
  close(from);
  *size = status.st_size;
  return file;
}

static void write_file(const char *name, const uint8_t *bytes, Text end) {
  int to = open(name, O_CREAT | O_TRUNC | O_WRONLY, 0644);
  check(to >= 0 && write(to, bytes, end.at - bytes) == end.at - bytes, "not written");
  close(to);
}

int main(int count_of_words, char **words) {
  check(count_of_words == 6, "RECORD OUT TRACE FROM TO");
  check(strlen(words[4]) < 100 && strlen(words[5]) < 100, "a long name");
  const char *names[] = {words[4], words[5]};
  size_t size, count = 0, named = strlen(words[4]) + strlen(words[5]);
  uint8_t *file = read_file(words[1], &size);
  Message *messages = read_messages(file, size, words[4], &count);
  Token *list = play_list(file, messages, count);
  Token *tape = room(sizeof *tape * 2 * count);
  Arrival *arrivals = room(sizeof *arrivals * count);
  Call *calls = room(sizeof *calls * count);
  run(list, count, tape, arrivals, calls);
  uint8_t *record = room(20000 + 2 * size + count * (24 + named));
  write_file(words[2], record, record_of(record, names, file, messages, tape, 2 * count));
  uint8_t *trace = room(1000 + count * (120 + 2 * named));
  write_file(words[3], trace, trace_of(trace, names, arrivals, calls, tape, count));
}
