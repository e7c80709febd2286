// Logs a firm on to `globex session`, has QuickFIX ask for the report lines that the firm has missed, and prints each as it came.
//
//     g++ -std=c++14 -O2 -Wall -Wextra -o missed missed.cpp -lquickfix -lpthread
//     ./missed DICTIONARY HOST PORT FIRM EXCHANGE NUMBER FIRST
//
// NUMBER is the number (34) of the firm's next message, and FIRST that of the first line that it wants. README.md says why, and how
// QuickFIX has to be set. The headers of QuickFIX 1.15 have exception specifications, which C++17 does not allow: so this is C++14.
//
// Standard output has the lines, byte for byte as they came. The status is 0 if QuickFIX took all lines from FIRST on up to those that
// there are, in their order, each with PossDupFlag (43), and the session then still answered a test request and a logout. Else it is 1,
// and standard error says what was wrong. With QUICKFIX_LOG=1 in the environment standard error has each message and event, too.

#include <chrono>
#include <condition_variable>
#include <cstdlib>
#include <iostream>
#include <mutex>
#include <sstream>
#include <stdexcept>
#include <string>

#include <quickfix/Application.h>
#include <quickfix/FixFields.h>
#include <quickfix/FixValues.h>
#include <quickfix/Log.h>
#include <quickfix/Message.h>
#include <quickfix/MessageStore.h>
#include <quickfix/Session.h>
#include <quickfix/SessionSettings.h>
#include <quickfix/SocketInitiator.h>

namespace {

constexpr auto patience = std::chrono::seconds(20);
const std::string test_id = "still on";

// What is known of the lines, and how far the session is. QuickFIX calls from a thread of its own.
struct Progress {
    std::mutex mutex;
    std::condition_variable changed;
    int last_line;           // the last line that was taken
    int lines_there = -1;    // how many there are, by the answer to the logon
    bool is_on = false;      // QuickFIX has done with the answer to the logon
    bool is_alive = false;   // the test request was answered
    bool said_bye = false;   // the logout was answered
    bool is_over = false;    // the connection has ended
    std::string fault;       // what was wrong first
    std::string text;        // the message that came last, as bytes

    explicit Progress(int first) : last_line(first - 1) {}

    void fail(const std::string& what) {
        if (fault.empty()) fault = what;
    }

    bool has_all() const { return is_on && last_line >= lines_there; }

    // Waits until something holds; false if there was a fault, if the connection has ended, or if it takes too long.
    template <class Holds>
    bool wait(Holds holds) {
        std::unique_lock<std::mutex> lock(mutex);
        changed.wait_for(lock, patience, [&] { return holds() || is_over || !fault.empty(); });
        return holds() && fault.empty();
    }
};

// A store in which messages of the session take no number, as those of the engine take none: the number that is expected next is always
// that after the last line. QuickFIX raises the number of a usual store for a Logon or a Heartbeat, too.
class LineStore : public FIX::MemoryStore {
public:
    LineStore(Progress& progress, int number) : progress_(progress) { setNextSenderMsgSeqNum(number); }

    int getNextTargetMsgSeqNum() const noexcept override {
        std::lock_guard<std::mutex> lock(progress_.mutex);
        return progress_.last_line + 1;
    }
    void setNextTargetMsgSeqNum(int number) noexcept override {
        std::lock_guard<std::mutex> lock(progress_.mutex);
        progress_.last_line = number - 1;
    }
    void incrNextTargetMsgSeqNum() noexcept override {}

private:
    Progress& progress_;
};

class LineStores : public FIX::MessageStoreFactory {
public:
    LineStores(Progress& progress, int number) : progress_(progress), number_(number) {}
    FIX::MessageStore* create(const FIX::SessionID&) override { return new LineStore(progress_, number_); }
    void destroy(FIX::MessageStore* store) override { delete store; }

private:
    Progress& progress_;
    int number_;
};

// Keeps the bytes of the message that came last, since QuickFIX writes a message with its fields sorted.
class TextLog : public FIX::Log {
public:
    explicit TextLog(Progress& progress) : progress_(progress), is_loud_(std::getenv("QUICKFIX_LOG") != nullptr) {}

    void clear() override {}
    void backup() override {}
    void onIncoming(const std::string& text) override {
        std::lock_guard<std::mutex> lock(progress_.mutex);
        progress_.text = text;
        say("in ", text);
    }
    void onOutgoing(const std::string& text) override { say("out", text); }
    void onEvent(const std::string& text) override { say("   ", text); }

private:
    void say(const char* way, std::string text) {
        if (!is_loud_) return;
        for (auto& byte : text)
            if (byte == '\001') byte = '|';
        std::cerr << way << ' ' + text + '\n';
    }

    Progress& progress_;
    bool is_loud_;
};

class TextLogs : public FIX::LogFactory {
public:
    explicit TextLogs(Progress& progress) : progress_(progress) {}
    FIX::Log* create() override { return new TextLog(progress_); }
    FIX::Log* create(const FIX::SessionID&) override { return new TextLog(progress_); }
    void destroy(FIX::Log* log) override { delete log; }

private:
    Progress& progress_;
};

int number_of(const FIX::Message& message) { return std::stoi(message.getHeader().getField(FIX::FIELD::MsgSeqNum)); }

bool is_sent_again(const FIX::Message& message) {
    FIX::PossDupFlag flag(false);
    message.getHeader().getFieldIfSet(flag);
    return flag;
}

std::string text_of(const FIX::Message& message) {
    FIX::Text text;
    message.getFieldIfSet(text);
    return text;
}

class Firm : public FIX::Application {
public:
    explicit Firm(Progress& progress) : progress_(progress) {}

    void onCreate(const FIX::SessionID&) override {}
    void onLogon(const FIX::SessionID&) override {
        tell([&] { progress_.is_on = true; });
    }
    void onLogout(const FIX::SessionID&) override {
        tell([&] { progress_.is_over = true; });
    }
    // A message of the client that says what QuickFIX did not accept.
    void toAdmin(FIX::Message& message, const FIX::SessionID&) override {
        if (message.getHeader().getField(FIX::FIELD::MsgType) == FIX::MsgType_Reject)
            tell([&] { progress_.fail("QuickFIX refuses a message: " + text_of(message)); });
    }
    void toApp(FIX::Message&, const FIX::SessionID&) noexcept override {}

    void fromAdmin(const FIX::Message& message, const FIX::SessionID&) noexcept override {
        tell([&] {
            const auto& type = message.getHeader().getField(FIX::FIELD::MsgType);
            if (type == FIX::MsgType_Logon)
                progress_.lines_there = number_of(message) - 1;
            else if (type == FIX::MsgType_Heartbeat)
                progress_.is_alive = message.isSetField(FIX::FIELD::TestReqID) && message.getField(FIX::FIELD::TestReqID) == test_id;
            else if (type == FIX::MsgType_Logout && text_of(message) == "BYE")
                progress_.said_bye = true;
            else if (type == FIX::MsgType_Logout)
                progress_.fail("the firm is logged out: " + text_of(message));
            else if (type == FIX::MsgType_Reject && is_sent_again(message))
                take_line(message);
            else if (type == FIX::MsgType_Reject)
                progress_.fail("a message of the firm is refused: " + text_of(message));
            else if (type == FIX::MsgType_ResendRequest)
                progress_.fail("NUMBER is too high; the next one is " + message.getField(FIX::FIELD::BeginSeqNo));
        });
    }

    void fromApp(const FIX::Message& message, const FIX::SessionID&) noexcept override {
        tell([&] { take_line(message); });
    }

private:
    template <class Act>
    void tell(Act act) {
        std::lock_guard<std::mutex> lock(progress_.mutex);
        try {
            act();
        } catch (const std::exception& fault) {
            progress_.fail(fault.what());
        }
        progress_.changed.notify_all();
    }

    void take_line(const FIX::Message& line) {
        const int number = number_of(line);
        const std::string named = "line " + std::to_string(number);
        if (number != progress_.last_line + 1) return progress_.fail(named + " comes after line " + std::to_string(progress_.last_line));
        if (!is_sent_again(line)) return progress_.fail(named + " does not say that it is sent again");
        if (progress_.text.find("\00134=" + std::to_string(number) + '\001') == std::string::npos)
            return progress_.fail(named + " is not the message that came last");
        std::cout << progress_.text;
        progress_.last_line = number;
    }

    Progress& progress_;
};

int positive(const char* text, const char* what) {
    std::istringstream in(text);
    int number = 0;
    if (!(in >> number) || !in.eof() || number < 1) throw std::runtime_error(std::string(what) + " is no number from 1 on");
    return number;
}

FIX::SessionSettings settings_of(char** words) {
    std::stringstream text;
    text << "[DEFAULT]\n"
            "ConnectionType=initiator\n"
            "HeartBtInt=30\n"
            "ReconnectInterval=60\n"
            "StartTime=00:00:00\n"
            "EndTime=00:00:00\n"
            "ResetOnLogon=N\n"
            "UseDataDictionary=Y\n"
         << "DataDictionary=" << words[0] << '\n'
         << "SocketConnectHost=" << words[1] << '\n'
         << "SocketConnectPort=" << words[2] << "\n[SESSION]\nBeginString=FIX.4.2\n"
         << "SenderCompID=" << words[3] << '\n'
         << "TargetCompID=" << words[4] << '\n';
    return FIX::SessionSettings(text);
}

// Takes the lines, tries the session, and logs out. Throws what went wrong.
void run(Progress& progress, const FIX::SessionID& id) {
    auto& session = *FIX::Session::lookupSession(id);
    if (!progress.wait([&] { return progress.has_all(); })) throw std::runtime_error("not all lines came");
    FIX::Message test;
    test.getHeader().setField(FIX::MsgType(FIX::MsgType_TestRequest));
    test.setField(FIX::TestReqID(test_id));
    FIX::Session::sendToTarget(test, id);
    if (!progress.wait([&] { return progress.is_alive; })) throw std::runtime_error("the test request was not answered");
    session.logout();
    if (!progress.wait([&] { return progress.said_bye; })) throw std::runtime_error("the logout was not answered");
}

}  // namespace

int main(int argc, char** argv) {
    try {
        if (argc != 8) throw std::runtime_error("the words are DICTIONARY HOST PORT FIRM EXCHANGE NUMBER FIRST");
        const int number = positive(argv[6], "NUMBER");
        const int first = positive(argv[7], "FIRST");
        Progress progress(first);
        Firm firm(progress);
        LineStores stores(progress, number);
        TextLogs logs(progress);
        const auto settings = settings_of(argv + 1);
        FIX::SocketInitiator initiator(firm, stores, settings, logs);
        std::string why;
        initiator.start();
        try {
            run(progress, *settings.getSessions().begin());
        } catch (const std::exception& fault) {
            why = fault.what();
        }
        initiator.stop(true);
        std::cout.flush();
        if (!progress.fault.empty()) why = progress.fault;
        if (!why.empty()) throw std::runtime_error(why);
        if (!std::cout) throw std::runtime_error("cannot write the lines");
        std::cerr << "missed: lines " << first << " to " << progress.last_line << ", and the session stayed up\n";
    } catch (const std::exception& fault) {
        std::cerr << "missed: " << fault.what() << '\n';
        return 1;
    }
}
