/* What others take for one vector of voltages, without a certificate: a sparse Cholesky factorization (CHOLMOD,
   simplicial) or conjugate gradients with algebraic multigrid (hypre, BoomerAMG), in floating point.

   mpicc -O2 -I/usr/include/hypre baseline_peers.c -o baseline_peers -lcholmod -lHYPRE -lm
   usage: baseline_peers cholmod|hypre <netlist> <voltages>
   The netlist has cards of resistors, of sources to 0 and of loads to 0, as gen_mesh.py makes them. The voltages are a
   line `name volts` for each node. */
#include <HYPRE.h>
#include <HYPRE_krylov.h>
#include <HYPRE_parcsr_ls.h>
#include <mpi.h>
#include <stdint.h>
#include <stdio.h>
#include <stdlib.h>
#include <string.h>
#include <suitesparse/cholmod.h>
#include <time.h>

static char **names;
static uint32_t *slots;
static size_t nodes, room, mask;

static double now(void) {
  struct timespec t;
  clock_gettime(CLOCK_PROCESS_CPUTIME_ID, &t);
  return t.tv_sec + t.tv_nsec * 1e-9;
}

static uint64_t hash_of(const char *s) {
  uint64_t h = 1469598103934665603ull;
  for (; *s; s++) h = (h ^ (unsigned char)*s) * 1099511628211ull;
  return h ^ (h >> 29);
}

static void grow(void) {
  size_t more = (mask + 1) * 2;
  free(slots);
  slots = calloc(more, sizeof *slots);
  mask = more - 1;
  for (size_t k = 0; k < nodes; k++) {
    size_t at = hash_of(names[k]) & mask;
    while (slots[at]) at = (at + 1) & mask;
    slots[at] = k + 1;
  }
}

static int node(char *name) {
  if ((nodes + 1) * 2 > mask) grow();
  size_t at = hash_of(name) & mask;
  while (slots[at]) {
    if (!strcmp(names[slots[at] - 1], name)) return slots[at] - 1;
    at = (at + 1) & mask;
  }
  if (nodes == room) names = realloc(names, (room *= 2) * sizeof *names);
  names[nodes] = name;
  slots[at] = ++nodes;
  return nodes - 1;
}

static char *word(char **at) {
  while (**at == ' ') ++*at;
  char *from = *at;
  while (**at && **at != ' ') ++*at;
  if (**at) *(*at)++ = 0;
  return from;
}

struct card { int a, b; double value; };
static struct card *resistors, *pads, *loads;
static size_t resistor_count, pad_count, load_count;

static void add(struct card **list, size_t *count, struct card c) {
  if ((*count & (*count - 1)) == 0) *list = realloc(*list, (*count ? *count * 2 : 1) * sizeof c);
  (*list)[(*count)++] = c;
}

static void read_netlist(char *text) {
  names = malloc((room = 1024) * sizeof *names);
  mask = 1;
  grow();
  for (char *line = strtok(text, "\n"); line; line = strtok(NULL, "\n")) {
    if (line[0] != 'R' && line[0] != 'V' && line[0] != 'I') continue;
    char kind = line[0], *at = line;
    word(&at);
    char *a = word(&at), *b = word(&at);
    struct card c = {node(a), kind == 'R' ? node(b) : 0, strtod(word(&at), NULL)};
    if (kind == 'R') add(&resistors, &resistor_count, c);
    if (kind == 'V') add(&pads, &pad_count, c);
    if (kind == 'I') add(&loads, &load_count, c);
  }
}

/* The nodes without a pad are the unknowns. */
static int *place, unknowns;
static double *volts, *right, *diagonal;

static void reduce(void) {
  place = malloc(nodes * sizeof *place);
  volts = calloc(nodes, sizeof *volts);
  for (size_t k = 0; k < nodes; k++) place[k] = 0;
  for (size_t k = 0; k < pad_count; k++) place[pads[k].a] = -1, volts[pads[k].a] = pads[k].value;
  for (size_t k = 0; k < nodes; k++)
    if (place[k] == 0) place[k] = unknowns++;
  right = calloc(unknowns, sizeof *right);
  diagonal = calloc(unknowns, sizeof *diagonal);
  for (size_t k = 0; k < load_count; k++)
    if (place[loads[k].a] >= 0) right[place[loads[k].a]] -= loads[k].value;
  for (size_t k = 0; k < resistor_count; k++) {
    double g = 1 / resistors[k].value;
    int a = resistors[k].a, b = resistors[k].b, i = place[a], j = place[b];
    if (i >= 0) diagonal[i] += g;
    if (j >= 0) diagonal[j] += g;
    if (i >= 0 && j < 0) right[i] += g * volts[b];
    if (j >= 0 && i < 0) right[j] += g * volts[a];
  }
}

static void by_cholmod(double *x) {
  cholmod_common c;
  cholmod_start(&c);
  c.supernodal = CHOLMOD_SIMPLICIAL;
  cholmod_triplet *t = cholmod_allocate_triplet(unknowns, unknowns, unknowns + resistor_count, -1, CHOLMOD_REAL, &c);
  int *rows = t->i, *columns = t->j;
  double *values = t->x;
  size_t n = 0;
  for (int i = 0; i < unknowns; i++) rows[n] = columns[n] = i, values[n++] = diagonal[i];
  for (size_t k = 0; k < resistor_count; k++) {
    int i = place[resistors[k].a], j = place[resistors[k].b];
    if (i < 0 || j < 0 || i == j) continue;
    rows[n] = i > j ? i : j, columns[n] = i > j ? j : i, values[n++] = -1 / resistors[k].value;
  }
  t->nnz = n;
  cholmod_sparse *a = cholmod_triplet_to_sparse(t, 0, &c);
  cholmod_dense *b = cholmod_allocate_dense(unknowns, 1, unknowns, CHOLMOD_REAL, &c);
  memcpy(b->x, right, unknowns * sizeof *right);
  cholmod_factor *l = cholmod_analyze(a, &c);
  cholmod_factorize(a, l, &c);
  cholmod_dense *s = cholmod_solve(CHOLMOD_A, l, b, &c);
  memcpy(x, s->x, unknowns * sizeof *x);
}

static void by_hypre(double *x) {
  int *starts = calloc(unknowns + 1, sizeof *starts);
  for (int i = 0; i < unknowns; i++) starts[i + 1] = 1;
  for (size_t k = 0; k < resistor_count; k++) {
    int i = place[resistors[k].a], j = place[resistors[k].b];
    if (i >= 0 && j >= 0 && i != j) starts[i + 1]++, starts[j + 1]++;
  }
  for (int i = 0; i < unknowns; i++) starts[i + 1] += starts[i];
  int entries = starts[unknowns], *columns = malloc(entries * sizeof *columns), *at = malloc(unknowns * sizeof *at);
  double *values = malloc(entries * sizeof *values);
  for (int i = 0; i < unknowns; i++) columns[starts[i]] = i, values[starts[i]] = diagonal[i], at[i] = starts[i] + 1;
  for (size_t k = 0; k < resistor_count; k++) {
    int i = place[resistors[k].a], j = place[resistors[k].b];
    if (i < 0 || j < 0 || i == j) continue;
    columns[at[i]] = j, values[at[i]++] = -1 / resistors[k].value;
    columns[at[j]] = i, values[at[j]++] = -1 / resistors[k].value;
  }
  int *rows = malloc(unknowns * sizeof *rows), *counts = malloc(unknowns * sizeof *counts);
  for (int i = 0; i < unknowns; i++) rows[i] = i, counts[i] = starts[i + 1] - starts[i];
  HYPRE_IJMatrix matrix;
  HYPRE_IJVector b, v;
  HYPRE_ParCSRMatrix a;
  HYPRE_ParVector pb, pv;
  HYPRE_IJMatrixCreate(MPI_COMM_WORLD, 0, unknowns - 1, 0, unknowns - 1, &matrix);
  HYPRE_IJMatrixSetObjectType(matrix, HYPRE_PARCSR);
  HYPRE_IJMatrixSetRowSizes(matrix, counts);
  HYPRE_IJMatrixInitialize(matrix);
  HYPRE_IJMatrixAddToValues(matrix, unknowns, counts, rows, columns, values);
  HYPRE_IJMatrixAssemble(matrix);
  HYPRE_IJMatrixGetObject(matrix, (void **)&a);
  HYPRE_IJVectorCreate(MPI_COMM_WORLD, 0, unknowns - 1, &b);
  HYPRE_IJVectorCreate(MPI_COMM_WORLD, 0, unknowns - 1, &v);
  HYPRE_IJVectorSetObjectType(b, HYPRE_PARCSR);
  HYPRE_IJVectorSetObjectType(v, HYPRE_PARCSR);
  HYPRE_IJVectorInitialize(b);
  HYPRE_IJVectorInitialize(v);
  HYPRE_IJVectorSetValues(b, unknowns, rows, right);
  HYPRE_IJVectorAssemble(b);
  HYPRE_IJVectorAssemble(v);
  HYPRE_IJVectorGetObject(b, (void **)&pb);
  HYPRE_IJVectorGetObject(v, (void **)&pv);
  HYPRE_Solver gradients, grids;
  HYPRE_ParCSRPCGCreate(MPI_COMM_WORLD, &gradients);
  HYPRE_PCGSetMaxIter(gradients, 1000);
  HYPRE_PCGSetTol(gradients, 1e-10);
  HYPRE_BoomerAMGCreate(&grids);
  HYPRE_BoomerAMGSetTol(grids, 0);
  HYPRE_BoomerAMGSetMaxIter(grids, 1);
  HYPRE_BoomerAMGSetRelaxType(grids, 6);
  HYPRE_PCGSetPrecond(gradients, (HYPRE_PtrToSolverFcn)HYPRE_BoomerAMGSolve, (HYPRE_PtrToSolverFcn)HYPRE_BoomerAMGSetup, grids);
  HYPRE_ParCSRPCGSetup(gradients, a, pb, pv);
  HYPRE_ParCSRPCGSolve(gradients, a, pb, pv);
  HYPRE_IJVectorGetValues(v, unknowns, rows, x);
}

int main(int count, char **words) {
  if (count != 4) return 2;
  int hypre = !strcmp(words[1], "hypre");
  FILE *in = fopen(words[2], "rb");
  if (!in) return 3;
  fseek(in, 0, SEEK_END);
  size_t size = ftell(in);
  rewind(in);
  char *text = malloc(size + 1);
  size = fread(text, 1, size, in);
  text[size] = 0;
  read_netlist(text);
  reduce();
  double *x = calloc(unknowns + 1, sizeof *x);
  if (hypre) {
    MPI_Init(NULL, NULL);
    HYPRE_Init();
  }
  double begun = now();
  if (hypre) by_hypre(x);
  else by_cholmod(x);
  double taken = now() - begun;
  FILE *out = fopen(words[3], "wb");
  for (size_t k = 0; k < nodes; k++) fprintf(out, "%s %.9f\n", names[k], place[k] < 0 ? volts[k] : x[place[k]]);
  fclose(out);
  printf("solver %.3f\n", taken);
  return 0;
}
