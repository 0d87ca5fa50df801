// Asks one solver of minisat's library the questions that `fair_bench questions CNF QUESTIONS [CLAUSES]` asks, and measures
// them in the same way: with a third file each question brings the clause with its number, and retires it by its last
// literal. The bench compiles it: c++ -O2 minisat_questions.cpp -lminisat (Debian's package minisat).
#include <cstdint>
#include <cstdio>
#include <cstdlib>
#include <ctime>
#include <fstream>
#include <string>
#include <vector>

#include "minisat/core/Solver.h"

using Minisat::Lit;
using Minisat::mkLit;

typedef std::vector<int> Clause;

// Takes the clauses of a file in DIMACS form, one after the other.
template <class Take>
static void read_formula(const char* name, Take take) {
  std::ifstream file(name);
  std::string p, cnf;
  long variables, count;
  if (!(file >> p >> cnf >> variables >> count)) exit(1);
  Clause clause;
  for (int literal; file >> literal;) {
    if (literal != 0) {
      clause.push_back(literal);
      continue;
    }
    take(clause);
    clause.clear();
  }
}

static void fill(Minisat::Solver& solver, const Clause& clause, Minisat::vec<Lit>& lits) {
  lits.clear();
  for (int literal : clause) {
    int variable = abs(literal) - 1;
    while (solver.nVars() <= variable) solver.newVar();
    lits.push(mkLit(variable, literal < 0));
  }
}

static void add(Minisat::Solver& solver, const Clause& clause, Minisat::vec<Lit>& lits) {
  fill(solver, clause, lits);
  solver.addClause(lits);
}

static std::vector<Clause> formula_in(const char* name) {
  std::vector<Clause> clauses;
  read_formula(name, [&](const Clause& clause) { clauses.push_back(clause); });
  return clauses;
}

static int64_t nanoseconds(clockid_t clock) {
  timespec now;
  clock_gettime(clock, &now);
  return now.tv_sec * INT64_C(1000000000) + now.tv_nsec;
}

int main(int count, char** words) {
  if (count != 3 && count != 4) return 64;
  Minisat::Solver solver;
  Minisat::vec<Lit> lits;
  read_formula(words[1], [&](const Clause& clause) { add(solver, clause, lits); });
  std::vector<Clause> questions = formula_in(words[2]), brought;
  if (count == 4) brought = formula_in(words[3]);
  if (count == 4 && brought.size() != questions.size()) return 3;
  long sat = 0, unsat = 0;
  int64_t start = nanoseconds(CLOCK_PROCESS_CPUTIME_ID);
  for (size_t number = 0; number < questions.size(); number++) {
    if (count == 4) add(solver, brought[number], lits);
    fill(solver, questions[number], lits);
    (solver.solve(lits) ? sat : unsat)++;
    if (count == 4) add(solver, Clause(1, brought[number].back()), lits);
  }
  int64_t end = nanoseconds(CLOCK_PROCESS_CPUTIME_ID);
  fprintf(stderr, "conflicts %ld\n", (long)solver.conflicts);
  fprintf(stderr, "nanoseconds of processor time %lld\n", (long long)(end - start));
  printf("sat %ld\nunsat %ld\n", sat, unsat);
}
