// The best paths of each line through two to eight machines, as a program over OpenFst's library finds them.
//
//   line_by_line [--keep] [--nshortest N] MACHINE MACHINE.. LINES OUT
//
// Each line becomes an acceptor. It is composed lazily with the first machine, that with the second, and so on, and nothing is
// kept between lines. With --keep the machines are composed with each other first, lazily too, and what was expanded of them is
// kept for all lines. OUT gets what `fst batch` writes. All is one process, so that none begins for a line; what the loop over
// the lines took is printed in seconds of the processor.
#include <fst/fstlib.h>

#include <algorithm>
#include <cstring>
#include <ctime>
#include <fstream>
#include <iostream>
#include <memory>
#include <string>
#include <vector>

using Arc = fst::StdArc;
using Machine = fst::StdVectorFst;
using Composition = fst::ComposeFst<Arc>;

struct Answer {
  float weight;
  std::string text;
};

// The acceptor of a line.
static Machine Acceptor(const std::string &line) {
  Machine machine;
  int state = machine.AddState();
  machine.SetStart(state);
  for (unsigned char byte : line) {
    const int next = machine.AddState();
    machine.AddArc(state, Arc(byte, byte, 0, next));
    state = next;
  }
  machine.SetFinal(state, 0);
  return machine;
}

// Lists the paths of an acyclic machine from a state on.
static void List(const Machine &machine, int state, float weight, std::string *text, std::vector<Answer> *answers) {
  if (machine.Final(state) != Arc::Weight::Zero()) answers->push_back({weight + machine.Final(state).Value(), *text});
  for (fst::ArcIterator<Machine> arcs(machine, state); !arcs.Done(); arcs.Next()) {
    const Arc &arc = arcs.Value();
    if (arc.olabel) text->push_back(static_cast<char>(arc.olabel));
    List(machine, arc.nextstate, weight + arc.weight.Value(), text, answers);
    if (arc.olabel) text->pop_back();
  }
}

// The best paths of a line: through each of the machines in turn.
static std::vector<Answer> Answers(const std::string &line, const std::vector<const fst::Fst<Arc> *> &machines, int count) {
  // Nothing of a line is dropped before its answer is made: such a cache is the fastest.
  const fst::CacheOptions cache(false, 1 << 30);
  const Machine acceptor = Acceptor(line);
  std::vector<std::unique_ptr<Composition>> so_far;
  for (const auto *machine : machines) {
    const fst::Fst<Arc> *left = so_far.empty() ? static_cast<const fst::Fst<Arc> *>(&acceptor) : so_far.back().get();
    so_far.push_back(std::make_unique<Composition>(*left, *machine, cache));
  }
  Machine best;
  fst::ShortestPath(*so_far.back(), &best, count);
  std::vector<Answer> answers;
  if (best.Start() == fst::kNoStateId) return answers;
  std::string text;
  List(best, best.Start(), 0, &text, &answers);
  std::stable_sort(answers.begin(), answers.end(), [](const Answer &a, const Answer &b) { return a.weight < b.weight; });
  return answers;
}

int main(int argc, char **argv) {
  bool keep = false;
  int count = 1;
  std::vector<std::string> names;
  for (int at = 1; at < argc; ++at) {
    if (!strcmp(argv[at], "--keep")) keep = true;
    else if (!strcmp(argv[at], "--nshortest")) count = std::stoi(argv[++at]);
    else names.push_back(argv[at]);
  }
  if (names.size() < 4) {
    std::cerr << "usage: line_by_line [--keep] [--nshortest N] MACHINE MACHINE.. LINES OUT\n";
    return 2;
  }
  std::vector<std::unique_ptr<Machine>> read;
  for (size_t at = 0; at + 2 < names.size(); ++at) {
    read.emplace_back(Machine::Read(names[at]));
    if (!read.back()) return 1;
    fst::ArcSort(read.back().get(), fst::ILabelCompare<Arc>());
    // Asked once here, so that no composition asks it again.
    read.back()->Properties(fst::kFstProperties, true);
  }
  std::vector<std::string> lines;
  std::ifstream in(names[names.size() - 2], std::ios::binary);
  for (std::string line; std::getline(in, line);) lines.push_back(line);

  std::vector<const fst::Fst<Arc> *> machines;
  std::vector<std::unique_ptr<Composition>> kept;
  for (const auto &machine : read) machines.push_back(machine.get());
  if (keep) {
    const fst::CacheOptions cache(false, 1 << 30);
    for (size_t at = 1; at < read.size(); ++at) {
      const fst::Fst<Arc> *left = kept.empty() ? static_cast<const fst::Fst<Arc> *>(machines[0]) : kept.back().get();
      kept.push_back(std::make_unique<Composition>(*left, *machines[at], cache));
    }
    machines = {kept.back().get()};
  }
  std::ofstream out(names.back(), std::ios::binary);
  const std::clock_t began = std::clock();
  for (size_t at = 0; at < lines.size(); ++at) {
    const std::vector<Answer> answers = Answers(lines[at], machines, count);
    if (answers.empty()) out << at + 1 << "\tnone\n";
    for (const Answer &answer : answers) out << at + 1 << '\t' << static_cast<long>(answer.weight) << '\t' << answer.text << '\n';
  }
  std::cout << static_cast<double>(std::clock() - began) / CLOCKS_PER_SEC << '\n';
  return out.flush() ? 0 : 1;
}
