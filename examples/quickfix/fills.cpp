// Reads the reports of the engine with QuickFIX, checks each with the merged dictionary, and prints the fills.
//
//     g++ -std=c++14 -O2 -Wall -Wextra -o fills fills.cpp -lquickfix
//     ./fills DICTIONARY [REPORTS]     without REPORTS it reads standard input
//
// The headers of QuickFIX 1.15 have exception specifications, which C++17 does not allow: so this is C++14.
//
// Each fill has the line that `globex fills` prints for it: TRADE STEP NAME SIDE LOTS@PRICE #NUMBER FIRM ID. The status is 0
// if the input is frames to its end and each is valid. Else it is 1, and standard error says which message is at fault and why.

#include <algorithm>
#include <cstddef>
#include <ctime>
#include <exception>
#include <fstream>
#include <iostream>
#include <stdexcept>
#include <string>

#include <quickfix/DataDictionary.h>
#include <quickfix/Exceptions.h>
#include <quickfix/Fields.h>
#include <quickfix/Message.h>

namespace {

namespace tag = FIX::FIELD;
constexpr int gx_step = 9001;
constexpr int gx_trade_number = 9002;

// Takes the next frame from the input. False at the end of the input.
// FIX::Parser would do it too, but it passes over bytes that are no frame, and says nothing of a frame that is cut off.
bool read_frame(std::istream& in, std::string& frame) {
    static const std::string front = "8=FIX.4.2\0019=";
    constexpr std::size_t trailer_size = 7;
    frame.resize(front.size());
    in.read(&frame[0], static_cast<std::streamsize>(frame.size()));
    if (in.gcount() == 0 && in.eof()) return false;
    if (frame != front) throw std::runtime_error("no whole frame begins here");
    std::string length;
    std::getline(in, length, '\001');
    if (length.empty() || length.size() > 6 || length.find_first_not_of("0123456789") != std::string::npos)
        throw std::runtime_error("its length is no number");
    frame += length + '\001';
    const auto body = frame.size();
    frame.resize(body + std::stoul(length) + trailer_size);
    if (!in.read(&frame[body], static_cast<std::streamsize>(frame.size() - body)))
        throw std::runtime_error("the input ends within it");
    return true;
}

// The Reject of a message whose own time is not known has this in 52. It is no time, and the dictionary refuses it.
bool is_reject_without_time(const FIX::Message& message) {
    const auto& header = message.getHeader();
    return header.getField(tag::MsgType) == FIX::MsgType_Reject && header.getField(tag::SendingTime) == "00000000-00:00:00";
}

bool is_fill(const FIX::Message& message) {
    if (message.getHeader().getField(tag::MsgType) != FIX::MsgType_ExecutionReport) return false;
    const auto& exec_type = message.getField(tag::ExecType);
    return exec_type == "1" || exec_type == "2";
}

void print_fill(const FIX::Message& fill) {
    std::cout << fill.getField(gx_trade_number) << ' ' << fill.getField(gx_step) << ' ' << fill.getField(tag::Symbol) << ' '
              << (fill.getField(tag::Side) == "1" ? 'B' : 'S') << ' ' << fill.getField(tag::LastShares) << '@'
              << fill.getField(tag::LastPx) << " #" << fill.getField(tag::OrderID) << ' '
              << fill.getHeader().getField(tag::TargetCompID) << ' ' << fill.getField(tag::ClOrdID) << '\n';
}

// The tag at fault is a member of these exceptions, and their text does not have it. 0 of any other exception.
template <class Fault>
int tag_of(const std::exception& fault) {
    const auto* known = dynamic_cast<const Fault*>(&fault);
    return known ? known->field : 0;
}

std::string reason(const std::exception& fault) {
    const int at = std::max({tag_of<FIX::FieldNotFound>(fault), tag_of<FIX::IncorrectDataFormat>(fault),
                             tag_of<FIX::IncorrectTagValue>(fault), tag_of<FIX::InvalidTagNumber>(fault),
                             tag_of<FIX::NoTagValue>(fault), tag_of<FIX::RepeatedTag>(fault),
                             tag_of<FIX::RequiredTagMissing>(fault), tag_of<FIX::TagNotDefinedForMessage>(fault),
                             tag_of<FIX::TagOutOfOrder>(fault)});
    return (at ? "tag " + std::to_string(at) + ": " : "") + fault.what();
}

}  // namespace

int main(int argc, char** argv) {
    std::string place = "at the start";
    try {
        if (argc != 2 && argc != 3) throw std::runtime_error("the words are DICTIONARY [REPORTS]");
        const FIX::DataDictionary dictionary(argv[1]);
        std::ifstream file;
        if (argc == 3) file.open(argv[2], std::ios::binary);
        if (!file) throw std::runtime_error(std::string("cannot read ") + argv[2]);
        std::istream& in = argc == 3 ? file : std::cin;

        std::size_t number = 1, offset = 0;
        std::string frame;
        while (place = "message " + std::to_string(number) + " at byte " + std::to_string(offset), read_frame(in, frame)) {
            FIX::Message message(frame, dictionary);  // checks the length and the checksum
            if (is_reject_without_time(message)) {
                std::cerr << "fills: " << place << " is a Reject without a time: " << message.getField(tag::Text) << '\n';
                message.getHeader().setField(FIX::SendingTime(FIX::UtcTimeStamp(std::time(nullptr))));
            }
            dictionary.validate(message);
            if (is_fill(message)) print_fill(message);
            ++number;
            offset += frame.size();
        }
        place = "at the end";
        if (!std::cout.flush()) throw std::runtime_error("cannot write the fills");
    } catch (const std::exception& fault) {
        std::cout.flush();
        std::cerr << "fills: " << place << ": " << reason(fault) << '\n';
        return 1;
    }
}
