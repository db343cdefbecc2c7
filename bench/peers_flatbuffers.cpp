// The documents of peers.rs in FlatBuffers, for bench/peers_flatbuffers.rs to call. Its declarations have the same types.

#include <cstddef>
#include <cstdint>
#include <vector>

#include "peers_generated.h"

namespace {

struct Text {
  const char *bytes;
  size_t length;
};

// A number, or a text where there are bytes.
struct Value {
  int64_t number;
  Text text;
};

struct Pair {
  Text key;
  Value value;
};

struct Record {
  bool active;
  int64_t id;
  Text mail;
  Text name;
  int64_t score;
};

enum class Field : uint32_t { Active, Id, Mail, Name, Score };

struct FieldOf {
  size_t record;
  Field field;
};

struct ScoreOf {
  size_t record;
  int64_t score;
};

struct NumberOf {
  const char *key;
  int64_t number;
};

enum class Kind : uint32_t { Missing, Bool, Number, Text };

// What a question finds.
struct Found {
  Kind kind;
  Value value;
};

struct Built {
  flatbuffers::DetachedBuffer bytes;

  const peers::Document *document() const { return peers::GetDocument(bytes.data()); }
  peers::Document *changed() { return peers::GetMutableDocument(bytes.data()); }
};

flatbuffers::Offset<flatbuffers::String> created(flatbuffers::FlatBufferBuilder &builder, Text text) {
  return builder.CreateString(text.bytes, text.length);
}

flatbuffers::Offset<peers::Pair> created(flatbuffers::FlatBufferBuilder &builder, const Pair &pair) {
  const auto key = created(builder, pair.key);
  if (pair.value.text.bytes) {
    const auto text = created(builder, pair.value.text);
    return peers::CreatePair(builder, key, flatbuffers::nullopt, text);
  }
  return peers::CreatePair(builder, key, pair.value.number);
}

flatbuffers::Offset<peers::Record> created(flatbuffers::FlatBufferBuilder &builder, const Record &record) {
  const auto mail = created(builder, record.mail);
  const auto name = created(builder, record.name);
  return peers::CreateRecord(builder, record.active, record.id, mail, name, record.score);
}

Found found(const flatbuffers::String *text) {
  return {Kind::Text, {0, {text->c_str(), text->size()}}};
}

Found found(int64_t number) { return {Kind::Number, {number, {}}}; }

uint64_t sum_of(const peers::Pair *pair) {
  if (!pair) {
    return 0;
  }
  const auto number = pair->number();
  return number ? uint64_t(*number) : pair->text()->size();
}

uint64_t sum_of(const peers::Record *record, Field field) {
  switch (field) {
    case Field::Active: return record->active();
    case Field::Id: return uint64_t(record->id());
    case Field::Mail: return record->mail()->size();
    case Field::Name: return record->name()->size();
    case Field::Score: return uint64_t(record->score());
  }
  return 0;
}

}  // namespace

extern "C" {

// The vector is sorted by keys here, as each vector that is searched must be.
Built *peers_flatbuffers_build_pairs(const Pair *pairs, size_t count) {
  flatbuffers::FlatBufferBuilder builder;
  std::vector<flatbuffers::Offset<peers::Pair>> all;
  for (size_t i = 0; i < count; i++) {
    all.push_back(created(builder, pairs[i]));
  }
  const auto sorted = builder.CreateVectorOfSortedTables(&all);
  builder.Finish(peers::CreateDocument(builder, 0, sorted));
  return new Built{builder.Release()};
}

// A score of 0 takes room too, as it can be edited only then.
Built *peers_flatbuffers_build_records(const Record *records, size_t count) {
  flatbuffers::FlatBufferBuilder builder;
  builder.ForceDefaults(true);
  std::vector<flatbuffers::Offset<peers::Record>> all;
  for (size_t i = 0; i < count; i++) {
    all.push_back(created(builder, records[i]));
  }
  builder.Finish(peers::CreateDocument(builder, builder.CreateVector(all)));
  return new Built{builder.Release()};
}

size_t peers_flatbuffers_length(const Built *built) { return built->bytes.size(); }

void peers_flatbuffers_free(Built *built) { delete built; }

bool peers_flatbuffers_check(const Built *built) {
  flatbuffers::Verifier::Options options;
  options.max_tables = UINT32_MAX;
  flatbuffers::Verifier verifier(built->bytes.data(), built->bytes.size(), options);
  return peers::VerifyDocumentBuffer(verifier);
}

Found peers_flatbuffers_value(const Built *built, const char *key) {
  const auto pair = built->document()->pairs()->LookupByKey(key);
  if (!pair) {
    return {};
  }
  const auto number = pair->number();
  return number ? found(*number) : found(pair->text());
}

uint64_t peers_flatbuffers_sum_values(const Built *built, const char *const *keys, size_t count) {
  const auto pairs = built->document()->pairs();
  uint64_t sum = 0;
  for (size_t i = 0; i < count; i++) {
    sum += sum_of(pairs->LookupByKey(keys[i]));
  }
  return sum;
}

size_t peers_flatbuffers_edit_values(Built *built, const NumberOf *edits, size_t count) {
  const auto pairs = built->changed()->mutable_pairs();
  size_t done = 0;
  for (size_t i = 0; i < count; i++) {
    const auto pair = pairs->MutableLookupByKey(edits[i].key);
    done += pair && pair->mutate_number(edits[i].number);
  }
  return done;
}

Found peers_flatbuffers_field(const Built *built, FieldOf of) {
  const auto record = built->document()->records()->Get(of.record);
  switch (of.field) {
    case Field::Active: return {Kind::Bool, {record->active(), {}}};
    case Field::Id: return found(record->id());
    case Field::Mail: return found(record->mail());
    case Field::Name: return found(record->name());
    case Field::Score: return found(record->score());
  }
  return {};
}

uint64_t peers_flatbuffers_sum_fields(const Built *built, const FieldOf *fields, size_t count) {
  const auto records = built->document()->records();
  uint64_t sum = 0;
  for (size_t i = 0; i < count; i++) {
    sum += sum_of(records->Get(fields[i].record), fields[i].field);
  }
  return sum;
}

size_t peers_flatbuffers_edit_scores(Built *built, const ScoreOf *edits, size_t count) {
  const auto records = built->changed()->mutable_records();
  size_t done = 0;
  for (size_t i = 0; i < count; i++) {
    done += records->GetMutableObject(edits[i].record)->mutate_score(edits[i].score);
  }
  return done;
}

}  // extern "C"
