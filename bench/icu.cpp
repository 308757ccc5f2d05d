// ICU beside nfstream: `icu FORM` writes the form of standard input (nfc, nfd, nfkc, nfkd); `icu --version` names the library.
// A block is normalized up to its last boundary of the form; what stands after that waits for the next block.
#include <unicode/bytestream.h>
#include <unicode/normalizer2.h>
#include <unicode/utf8.h>
#include <unicode/uversion.h>

#include <unistd.h>

#include <climits>
#include <cstdio>
#include <cstdlib>
#include <cstring>
#include <string>
#include <vector>

namespace {

constexpr int32_t kBlock = 1 << 16;

[[noreturn]] void fail(const char *what) {
    std::fprintf(stderr, "icu: %s\n", what);
    std::exit(1);
}

// A block of output; ICU writes changed text into its free end.
class Output : public icu::ByteSink {
  public:
    void Append(const char *bytes, int32_t count) override {
        if (bytes == block_ + used_) {
            used_ += count;
            return;
        }
        if (count > kBlock - used_) empty();
        if (count > kBlock) {
            write_all(bytes, count);
            return;
        }
        std::memcpy(block_ + used_, bytes, count);
        used_ += count;
    }

    char *GetAppendBuffer(int32_t least, int32_t, char *scratch, int32_t scratch_size, int32_t *size) override {
        if (least > kBlock - used_) empty();
        if (least > kBlock) {
            *size = scratch_size;
            return scratch;
        }
        *size = kBlock - used_;
        return block_ + used_;
    }

    void empty() {
        write_all(block_, used_);
        used_ = 0;
    }

  private:
    static void write_all(const char *bytes, int32_t count) {
        while (count > 0) {
            const ssize_t written = write(STDOUT_FILENO, bytes, count);
            if (written <= 0) fail("write failed");
            bytes += written;
            count -= static_cast<int32_t>(written);
        }
    }

    char block_[kBlock];
    int32_t used_ = 0;
};

// The last place after `from` in text[0, end) at which the form can be cut; 0 where there is none.
int32_t last_boundary(const icu::Normalizer2 &form, const char *text, int32_t from, int32_t end) {
    for (int32_t at = end; at > from;) {
        UChar32 c;
        U8_PREV(text, 0, at, c);
        if (c >= 0 && form.hasBoundaryBefore(c)) return at;
    }
    return 0;
}

void normalize(const icu::Normalizer2 &form, const char *text, int32_t count, Output &output) {
    UErrorCode error = U_ZERO_ERROR;
    form.normalizeUTF8(0, icu::StringPiece(text, count), output, nullptr, error);
    if (U_FAILURE(error)) fail(u_errorName(error));
}

void convert(const icu::Normalizer2 &form) {
    static Output output;
    std::vector<char> text(2 * kBlock);
    int32_t held = 0;
    while (true) {
        if (held > INT_MAX / 2 - kBlock) fail("a run without a boundary passes 1 GiB");
        if (text.size() < static_cast<size_t>(held) + kBlock) text.resize(2 * text.size());
        const ssize_t count = read(STDIN_FILENO, text.data() + held, kBlock);
        if (count < 0) fail("read failed");
        if (count == 0) break;
        const int32_t end = held + static_cast<int32_t>(count);
        // What was held has no boundary, but a character may have been cut at its end.
        const int32_t seen = held < U8_MAX_LENGTH ? 0 : held - U8_MAX_LENGTH;
        const int32_t cut = last_boundary(form, text.data(), seen, end);
        normalize(form, text.data(), cut, output);
        held = end - cut;
        if (cut > 0) std::memmove(text.data(), text.data() + cut, held);
    }
    normalize(form, text.data(), held, output);
    output.empty();
}

const icu::Normalizer2 *form_of(const std::string &word, UErrorCode &error) {
    if (word == "nfc") return icu::Normalizer2::getNFCInstance(error);
    if (word == "nfd") return icu::Normalizer2::getNFDInstance(error);
    if (word == "nfkc") return icu::Normalizer2::getNFKCInstance(error);
    if (word == "nfkd") return icu::Normalizer2::getNFKDInstance(error);
    return nullptr;
}

}  // namespace

int main(int count, char **words) {
    const std::string word = count == 2 ? words[1] : "";
    if (word == "--version") {
        std::printf("ICU %s\n", U_ICU_VERSION);
        return 0;
    }
    UErrorCode error = U_ZERO_ERROR;
    const icu::Normalizer2 *form = form_of(word, error);
    if (U_FAILURE(error)) fail(u_errorName(error));
    if (form == nullptr) fail("the word is nfc, nfd, nfkc, nfkd or --version");
    convert(*form);
    return 0;
}
