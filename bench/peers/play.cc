// The play of the files of `cyber make` over libprotobuf: reads the record, plays it through the
// four components of that DAG, and writes the record and the trace that `cyber play --serial`
// writes. The wiring is built in. It takes well-formed records with plain names of channels, and
// checks little. Arguments: RECORD OUT TRACE.
#include <algorithm>
#include <array>
#include <charconv>
#include <cstdint>
#include <cstdio>
#include <cstdlib>
#include <cstring>
#include <deque>
#include <limits>
#include <memory>
#include <optional>
#include <string>
#include <string_view>
#include <vector>

#include "record.pb.h"

namespace {

constexpr size_t kHeaderEnd = 2064;
constexpr uint64_t kLongestBody = 200'000'000;
constexpr uint64_t kLongestTime = 20'000'000'000;
constexpr size_t kBuffer = 1 << 20;
constexpr uint64_t kLast = std::numeric_limits<uint64_t>::max();

enum Kind : uint32_t { kHeader, kChunkHeader, kChunkBody, kIndex, kChannel };

[[noreturn]] void fail(const char* what) {
  std::fprintf(stderr, "%s\n", what);
  std::exit(1);
}

void check(bool holds, const char* what) {
  if (!holds) fail(what);
}

// ---- The components of the DAG.

constexpr size_t kMostReaders = 2;

enum class Class { kSum, kFilter, kWindow, kHold };

struct Plan {
  std::string name;
  Class kind;
  std::vector<std::string> readers;
  std::string out;
  size_t queue = 1;
  int64_t lo = 0, hi = 0;  // of a filter
  size_t n = 0;            // of a window
  uint64_t delay = 0;      // of a hold
};

std::vector<Plan> plans() {
  std::vector<Plan> all;
  all.push_back({"adder", Class::kSum, {"/a", "/b"}, "/sum"});
  all.push_back({"band", Class::kFilter, {"/sum"}, "/band"});
  all.back().lo = -2000;
  all.back().hi = 500;
  all.push_back({"last8", Class::kWindow, {"/band"}, "/win"});
  all.back().n = 8;
  all.push_back({"late", Class::kHold, {"/a"}, "/late"});
  all.back().delay = 5'000'000;
  return all;
}

// ---- Channels and messages.

struct Form {
  std::string name, type, description;
};

class Channels {
 public:
  // There are few, so that a search is as fast as a map.
  uint32_t number_of(const std::string& name) {
    for (uint32_t k = 0; k < forms_.size(); k++) {
      if (forms_[k].name == name) return k;
    }
    forms_.push_back({name, "", ""});
    return forms_.size() - 1;
  }
  Form& operator[](uint32_t number) { return forms_[number]; }
  const Form& operator[](uint32_t number) const { return forms_[number]; }
  size_t size() const { return forms_.size(); }

 private:
  std::vector<Form> forms_;
};

// A message; its content is a part of the pool of contents.
struct Message {
  uint64_t time = 0;
  int64_t value = 0;
  uint32_t start = 0, length = 0;
  uint32_t seq = 0;
  uint16_t channel = 0;
  bool has_value = false;
};

// ---- Reading the record.

std::string read_file(const char* name) {
  std::unique_ptr<FILE, int (*)(FILE*)> file(std::fopen(name, "rb"), std::fclose);
  check(file && std::fseek(file.get(), 0, SEEK_END) == 0, "the record can't be opened");
  std::string bytes(std::ftell(file.get()), '\0');
  std::rewind(file.get());
  check(std::fread(bytes.data(), 1, bytes.size(), file.get()) == bytes.size(), "not read");
  return bytes;
}

uint64_t little_endian(std::string_view bytes) {
  uint64_t value = 0;
  for (size_t k = bytes.size(); k-- > 0;) value = value << 8 | static_cast<uint8_t>(bytes[k]);
  return value;
}

struct Section {
  uint64_t kind;
  std::string_view body;
};

Section take_section(std::string_view& rest) {
  check(rest.size() >= 16, "the record is cut");
  Section section{little_endian(rest.substr(0, 8)), {}};
  uint64_t length = little_endian(rest.substr(8, 8));
  rest.remove_prefix(16);
  check(length <= rest.size(), "the record is cut");
  section.body = rest.substr(0, length);
  rest.remove_prefix(length);
  return section;
}

void parse(google::protobuf::MessageLite& message, std::string_view bytes) {
  check(message.ParseFromArray(bytes.data(), bytes.size()), "the record is unreadable");
}

// The messages of the record, in the order of the file, with contents in the pool.
std::vector<Message> read_record(std::string_view file, Channels& channels, std::string& pool) {
  std::vector<Message> messages;
  std::string_view rest = file;
  record::Header header;
  parse(header, take_section(rest).body);
  messages.reserve(std::min<size_t>(header.message_number(), file.size() / 4));
  check(file.size() >= kHeaderEnd, "the record is cut");
  rest = file.substr(kHeaderEnd);
  record::ChunkBody chunk;  // one for all, since it keeps its memory
  record::Channel channel;
  record::Whole whole;
  while (!rest.empty()) {
    Section section = take_section(rest);
    if (section.kind == kIndex) break;
    if (section.kind == kChannel) {
      parse(channel, section.body);
      Form& form = channels[channels.number_of(channel.name())];
      form.type = channel.message_type();
      form.description = channel.proto_desc();
    } else if (section.kind == kChunkBody) {
      parse(chunk, section.body);
      for (const record::SingleMessage& single : chunk.messages()) {
        Message message;
        message.time = single.time();
        message.channel = channels.number_of(single.channel_name());
        message.start = pool.size();
        message.length = single.content().size();
        pool += single.content();
        message.has_value = whole.ParseFromString(single.content()) && whole.has_value();
        message.value = message.has_value ? whole.value() : 0;
        messages.push_back(message);
      }
    } else {
      check(section.kind == kChunkHeader, "an unknown section");
    }
  }
  return messages;
}

// Messages on channels that components write aren't played.
void leave_out_shadowed(std::vector<Message>& list, const std::vector<Plan>& plans,
                        const Channels& channels) {
  auto is_shadowed = [&](const Message& message) {
    const std::string& name = channels[message.channel].name;
    return std::any_of(plans.begin(), plans.end(), [&](const Plan& it) { return it.out == name; });
  };
  list.erase(std::remove_if(list.begin(), list.end(), is_shadowed), list.end());
}

void sort_by_time(std::vector<Message>& list) {
  auto is_earlier = [](const Message& a, const Message& b) { return a.time < b.time; };
  if (std::is_sorted(list.begin(), list.end(), is_earlier)) return;
  std::stable_sort(list.begin(), list.end(), is_earlier);
}

// ---- The run.

constexpr uint32_t kNone = std::numeric_limits<uint32_t>::max();

// The places of messages on the tape, by reader.
using Tuple = std::array<uint32_t, kMostReaders>;

struct Call {
  uint32_t position, tail;
  Tuple tuple;
  uint32_t out;  // the place of its output on the tape, or kNone
};

int64_t limited(__int128 sum) {
  using limits = std::numeric_limits<int64_t>;
  return static_cast<int64_t>(std::clamp<__int128>(sum, limits::min(), limits::max()));
}

class Component {
 public:
  Component(const Plan& plan, uint16_t out, size_t most) : plan_(plan), out_(out) {
    latest_.fill(kNone);
    roles_.reserve(most);
    calls_.reserve(most);
  }

  void arrive(size_t role, uint32_t place) {
    roles_ += static_cast<char>('0' + role);
    latest_[role] = place;
    if (role > 0) return;
    for (size_t k = 0; k < plan_.readers.size(); k++) {
      if (latest_[k] == kNone) return;
    }
    if (kept_.size() == plan_.queue) kept_.pop_front();
    kept_.push_back(latest_);
    tail_++;
  }

  bool can_resume(uint64_t clock) const {
    return held_ ? held_->time < clock : tail_ > 0 && next_ <= tail_;
  }

  // Gives the held output, or makes the next call; the output that is sent now goes to the place.
  std::optional<Message> resume(const std::vector<Message>& tape, std::string& pool) {
    std::optional<Message> sent;
    if (held_) {
      std::swap(sent, held_);
    } else {
      sent = call(tape, pool);
      if (plan_.kind == Class::kHold) std::swap(sent, held_);
    }
    if (sent) calls_.back().out = tape.size();
    return sent;
  }

  const Plan& plan() const { return plan_; }
  uint32_t next() const { return next_; }
  const std::string& roles() const { return roles_; }
  const std::vector<Call>& calls() const { return calls_; }

 private:
  // The number of the tuple that a fetch finds, where there is one.
  uint32_t fetch() const { return next_ > 0 && next_ + plan_.queue > tail_ ? next_ : tail_; }

  std::optional<Message> call(const std::vector<Message>& tape, std::string& pool) {
    uint32_t position = fetch();
    Tuple tuple = kept_[kept_.size() - 1 - (tail_ - position)];
    std::optional<Message> out = answer(tape, tuple, pool);
    calls_.push_back({position, tail_, tuple, kNone});
    next_ = position + 1;
    if (out) {
      out->seq = ++sent_;
      out->channel = out_;
    }
    return out;
  }

  // What the class answers to a tuple.
  std::optional<Message> answer(const std::vector<Message>& tape, const Tuple& tuple,
                                std::string& pool) {
    Message out = tape[tuple[0]];
    switch (plan_.kind) {
      case Class::kSum: {
        __int128 sum = 0;
        for (size_t k = 0; k < plan_.readers.size(); k++) {
          const Message& message = tape[tuple[k]];
          if (!message.has_value) return {};
          sum += message.value;
        }
        set_value(out, limited(sum), pool);
        return out;
      }
      case Class::kFilter:
        if (!out.has_value || out.value < plan_.lo || out.value > plan_.hi) return {};
        return out;
      case Class::kWindow:
        if (!out.has_value) return {};
        if (window_.size() == plan_.n) {
          sum_ -= window_.front();
          window_.pop_front();
        }
        window_.push_back(out.value);
        sum_ += out.value;
        set_value(out, limited(sum_), pool);
        return out;
      case Class::kHold:
        out.time = std::min(out.time, kLast - 1 - std::min(plan_.delay, kLast - 1)) + plan_.delay;
        return out;
    }
    return {};
  }

  // A value of its own, with its content.
  void set_value(Message& out, int64_t value, std::string& pool) {
    whole_.set_value(value);
    out.value = value;
    out.start = pool.size();
    whole_.AppendToString(&pool);
    out.length = pool.size() - out.start;
  }

  const Plan& plan_;
  uint16_t out_;
  std::array<uint32_t, kMostReaders> latest_;
  std::deque<Tuple> kept_;
  uint32_t tail_ = 0, next_ = 0, sent_ = 0;
  std::deque<int64_t> window_;
  __int128 sum_ = 0;
  record::Whole whole_;
  std::optional<Message> held_;
  std::string roles_;  // as digits
  std::vector<Call> calls_;
};

class Run {
 public:
  // A run in which no channel has more than so many messages.
  Run(const std::vector<Plan>& plans, Channels& channels, std::string& pool, size_t most)
      : pool_(pool) {
    components_.reserve(plans.size());
    for (const Plan& plan : plans) {
      uint32_t out = channels.number_of(plan.out);
      channels[out] = {plan.out, "", ""};  // no component file has a type
      components_.emplace_back(plan, out, most);
    }
    routes_.resize(channels.size());
    for (uint32_t channel = 0; channel < channels.size(); channel++) {
      for (Component& component : components_) {
        const std::vector<std::string>& readers = component.plan().readers;
        auto it = std::find(readers.begin(), readers.end(), channels[channel].name);
        size_t role = it - readers.begin();
        if (it != readers.end()) routes_[channel].push_back({&component, role});
      }
    }
    tape_.reserve(most * (1 + plans.size()));
  }

  void play(std::vector<Message>& list) {
    std::vector<uint32_t> seqs(routes_.size());
    for (Message& message : list) {
      message.seq = ++seqs[message.channel];
      send(message);
      settle(message.time);
    }
    settle(kLast);
  }

  const std::vector<Component>& components() const { return components_; }
  const std::vector<Message>& tape() const { return tape_; }

 private:
  struct Reader {
    Component* component;
    size_t role;
  };

  void send(const Message& message) {
    uint32_t place = tape_.size();
    tape_.push_back(message);
    for (const Reader& reader : routes_[message.channel])
      reader.component->arrive(reader.role, place);
  }

  // Resumes components until none can be resumed.
  void settle(uint64_t clock) {
    for (;;) {
      auto it = components_.begin();
      while (it != components_.end() && !it->can_resume(clock)) ++it;
      if (it == components_.end()) return;
      if (std::optional<Message> sent = it->resume(tape_, pool_)) send(*sent);
    }
  }

  std::vector<Component> components_;
  std::vector<std::vector<Reader>> routes_;  // by channel
  std::vector<Message> tape_;
  std::string& pool_;
};

// ---- Writing the record.

class File {
 public:
  explicit File(const char* name) : file_(std::fopen(name, "wb")) {
    check(file_ && std::setvbuf(file_, nullptr, _IOFBF, kBuffer) == 0, "a file can't be made");
  }
  ~File() { check(std::fclose(file_) == 0, "not written"); }
  File(const File&) = delete;
  void write(std::string_view bytes) {
    check(std::fwrite(bytes.data(), 1, bytes.size(), file_) == bytes.size(), "not written");
  }
  void rewind() { check(std::fseek(file_, 0, SEEK_SET) == 0, "not written"); }

 private:
  FILE* file_;
};

// The least and the greatest time, the number, and the bytes of contents.
struct Counts {
  uint64_t begin = kLast, end = 0, messages = 0, raw = 0;

  void add(const Message& message) {
    begin = std::min(begin, message.time);
    end = std::max(end, message.time);
    messages++;
    raw += message.length;
  }
};

class RecordWriter {
 public:
  RecordWriter(const char* name, const Channels& channels, const std::string& pool)
      : file_(name), channels_(channels), pool_(pool) {}

  void write(const std::vector<Message>& tape) {
    file_.write(std::string(kHeaderEnd, '\0'));
    write_channels(tape);
    write_chunks(tape);
    header_.set_index_position(place_);
    write_section(kIndex, index_);
    header_.set_size(place_);
    header_.set_major_version(1);
    header_.set_minor_version(0);
    header_.set_compress(0);
    header_.set_chunk_interval(kLongestTime);
    header_.set_segment_interval(0);
    header_.set_begin_time(all_.messages ? all_.begin : 0);
    header_.set_end_time(all_.end);
    header_.set_message_number(all_.messages);
    header_.set_is_complete(true);
    header_.set_chunk_raw_size(kLongestBody);
    header_.set_segment_raw_size(0);
    file_.rewind();
    write_section(kHeader, header_);
  }

 private:
  void write_section(Kind kind, const google::protobuf::MessageLite& body) {
    bytes_.clear();
    check(body.AppendToString(&bytes_), "not spelled");
    uint64_t head[2] = {kind, bytes_.size()};
    file_.write({reinterpret_cast<const char*>(head), sizeof head});
    file_.write(bytes_);
    place_ += sizeof head + bytes_.size();
  }

  record::SingleIndex* add_entry(Kind kind) {
    record::SingleIndex* entry = index_.add_indexes();
    entry->set_type(kind);
    entry->set_position(place_);
    return entry;
  }

  // A section for each channel, in the order of their first messages.
  void write_channels(const std::vector<Message>& tape) {
    std::vector<uint64_t> counts(channels_.size());
    std::vector<uint32_t> order;
    for (const Message& message : tape) {
      if (counts[message.channel]++ == 0) order.push_back(message.channel);
    }
    for (uint32_t number : order) {
      const Form& form = channels_[number];
      record::ChannelCache* cache = add_entry(kChannel)->mutable_channel_cache();
      cache->set_message_number(counts[number]);
      cache->set_name(form.name);
      cache->set_message_type(form.type);
      cache->set_proto_desc(form.description);
      record::Channel channel;
      channel.set_name(form.name);
      channel.set_message_type(form.type);
      channel.set_proto_desc(form.description);
      write_section(kChannel, channel);
    }
    header_.set_channel_number(order.size());
  }

  void write_chunks(const std::vector<Message>& tape) {
    record::SingleMessage single;
    uint64_t first = 0, size = 0;
    for (const Message& message : tape) {
      fill(single, message);
      uint64_t length = single.ByteSizeLong();
      uint64_t more = 1 + google::protobuf::io::CodedOutputStream::VarintSize64(length) + length;
      bool is_late = message.time > first && message.time - first > kLongestTime;
      bool is_full = size + more > kLongestBody || is_late;
      if (counts_.messages > 0 && is_full) {
        write_chunk();
        size = 0;
      }
      if (counts_.messages == 0) first = message.time;
      counts_.add(message);
      all_.add(message);
      size += more;
      chunk_.add_messages()->Swap(&single);
    }
    if (counts_.messages > 0) write_chunk();
    header_.set_chunk_number(chunks_);
  }

  void fill(record::SingleMessage& single, const Message& message) {
    single.set_channel_name(channels_[message.channel].name);
    single.set_time(message.time);
    single.set_content(pool_.data() + message.start, message.length);
  }

  void write_chunk() {
    record::ChunkHeader head;
    head.set_begin_time(counts_.begin);
    head.set_end_time(counts_.end);
    head.set_message_number(counts_.messages);
    head.set_raw_size(counts_.raw);
    record::ChunkHeaderCache* cache = add_entry(kChunkHeader)->mutable_chunk_header_cache();
    cache->set_message_number(counts_.messages);
    cache->set_begin_time(counts_.begin);
    cache->set_end_time(counts_.end);
    cache->set_raw_size(counts_.raw);
    write_section(kChunkHeader, head);
    add_entry(kChunkBody)->mutable_chunk_body_cache()->set_message_number(counts_.messages);
    write_section(kChunkBody, chunk_);
    chunk_.Clear();
    counts_ = {};
    chunks_++;
  }

  File file_;
  const Channels& channels_;
  const std::string& pool_;
  record::Header header_;
  record::Index index_;
  record::ChunkBody chunk_;  // one for all, since it keeps its memory
  Counts counts_, all_;
  uint64_t chunks_ = 0, place_ = kHeaderEnd;
  std::string bytes_;
};

// ---- Writing the trace.

// A file of text, which is gathered in a buffer.
class Text {
 public:
  explicit Text(const char* name) : file_(name), buffer_(new char[kBuffer]), end_(buffer_.get()) {}
  ~Text() { flush(); }

  Text& operator<<(std::string_view words) {
    make_room(words.size());
    if (words.size() > kBuffer) {
      file_.write(words);
    } else {
      end_ = std::copy(words.begin(), words.end(), end_);
    }
    return *this;
  }
  Text& operator<<(char letter) {
    make_room(1);
    *end_++ = letter;
    return *this;
  }
  template <class Number, class = std::enable_if_t<std::is_integral_v<Number>>>
  Text& operator<<(Number number) {
    make_room(kDigits);
    end_ = std::to_chars(end_, end_ + kDigits, number).ptr;
    return *this;
  }

 private:
  static constexpr size_t kDigits = 20;  // of a number of 64 bits, with its sign

  void make_room(size_t size) {
    if (static_cast<size_t>(buffer_.get() + kBuffer - end_) < size) flush();
  }
  void flush() {
    file_.write({buffer_.get(), static_cast<size_t>(end_ - buffer_.get())});
    end_ = buffer_.get();
  }

  File file_;
  std::unique_ptr<char[]> buffer_;
  char* end_;
};

void write_trace(const char* name, const Channels& channels, const Run& run, size_t played,
                 size_t shadowed) {
  Text text(name);
  const std::vector<Message>& tape = run.tape();
  text << "cyber-trace 1\nplayed " << played << " shadowed " << shadowed << '\n';
  for (const Component& component : run.components()) {
    text << "component \"" << component.plan().name << "\"\n";
    text << "roles " << (component.roles().empty() ? "-" : component.roles()) << '\n';
    for (const Call& call : component.calls()) {
      text << "call " << call.position << '/' << call.tail;
      for (size_t k = 0; k < component.plan().readers.size(); k++) {
        text << ' ' << tape[call.tuple[k]].seq;
      }
      if (call.out == kNone) {
        text << " -";
      } else {
        const Message& out = tape[call.out];
        text << ' ' << out.seq << '@' << out.time;
        if (out.has_value) text << '=' << out.value;
      }
      text << '\n';
    }
    text << "end DATA_WAIT next " << component.next() << '\n';
  }
  for (const Message& message : tape) {
    text << "tape \"" << channels[message.channel].name << "\" " << message.seq << '\n';
  }
}

}  // namespace

int main(int count, char** words) {
  check(count == 4, "RECORD OUT TRACE");
  Channels channels;
  std::string file = read_file(words[1]), pool;
  pool.reserve(2 * file.size());
  std::vector<Message> list = read_record(file, channels, pool);
  const std::vector<Plan> components = plans();
  size_t all = list.size();
  leave_out_shadowed(list, components, channels);
  sort_by_time(list);
  Run run(components, channels, pool, list.size());
  run.play(list);
  RecordWriter(words[2], channels, pool).write(run.tape());
  write_trace(words[3], channels, run, list.size(), all - list.size());
  size_t calls = 0;
  for (const Component& component : run.components()) calls += component.calls().size();
  std::printf("done: played %zu, shadowed %zu, calls %zu, written %zu\n", list.size(),
              all - list.size(), calls, run.tape().size());
}
