// Levels of a breadth-first search by SuiteSparse:GraphBLAS, on a binary network file (docs/formats.md) from one node on.
//     levels FILE NODE
// Prints the seconds of the search, then for each level how many nodes it has, by rising level.
// The search is that of GraphBLAS' user guide: the frontier times the matrix, under the complement of the levels that are known.
#include <GraphBLAS.h>
#include <stdio.h>
#include <stdlib.h>
#include <time.h>

#define TRY(call) do { if ((call) != GrB_SUCCESS) { fprintf(stderr, "levels: %s\n", #call); exit(1); } } while (0)

static void *words(FILE *file, size_t count, size_t size) {
  void *at = malloc(count * size + 1);
  if (!at || fread(at, size, count, file) != count) { fprintf(stderr, "levels: a short file, or no memory\n"); exit(1); }
  return at;
}

static double now(void) {
  struct timespec t;
  clock_gettime(CLOCK_MONOTONIC, &t);
  return t.tv_sec + t.tv_nsec * 1e-9;
}

// The matrix of a network: a row's columns are the node's neighbours. `nodes` takes their number.
static GrB_Matrix matrix_of(const char *path, GrB_Index *nodes) {
  FILE *file = fopen(path, "rb");
  if (!file) { perror(path); exit(1); }
  uint64_t *head = words(file, 4, 8);
  GrB_Index n = head[1], ends = head[2];
  GrB_Index *offsets = words(file, n + 1, 8);
  uint32_t *near = words(file, ends, 4);
  GrB_Index *columns = malloc(ends * sizeof *columns + 1);
  bool one = true;
  for (size_t k = 0; k < ends; k++) columns[k] = near[k];
  GrB_Matrix matrix;
  TRY(GrB_Matrix_new(&matrix, GrB_BOOL, n, n));
  bool *value = malloc(1);
  *value = one;
  TRY(GxB_Matrix_pack_CSR(matrix, &offsets, &columns, (void **)&value, (n + 1) * 8, ends * 8, 1, true, true, NULL));
  fclose(file);
  free(head);
  free(near);
  *nodes = n;
  return matrix;
}

int main(int count, char **args) {
  if (count != 3) { fprintf(stderr, "usage: levels FILE NODE\n"); return 2; }
  TRY(GrB_init(GrB_NONBLOCKING));
  GrB_Index n, left = 1;
  GrB_Matrix matrix = matrix_of(args[1], &n);
  GrB_Vector levels, front;
  TRY(GrB_Vector_new(&levels, GrB_INT32, n));
  TRY(GrB_Vector_new(&front, GrB_BOOL, n));
  TRY(GrB_Vector_setElement_BOOL(front, true, strtoull(args[2], NULL, 10)));
  size_t *sizes = calloc(n + 1, sizeof *sizes);
  int32_t level = 0;
  double start = now();
  for (; left > 0; level++) {
    TRY(GrB_Vector_assign_INT32(levels, front, NULL, level, GrB_ALL, n, GrB_DESC_S));
    sizes[level] = left;
    TRY(GrB_vxm(front, levels, NULL, GxB_ANY_PAIR_BOOL, front, matrix, GrB_DESC_RSC));
    TRY(GrB_Vector_nvals(&left, front));
  }
  printf("%.6f\n", now() - start);
  for (int32_t k = 0; k < level; k++) printf("%zu\n", sizes[k]);
  return 0;
}
