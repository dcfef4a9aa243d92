// The filter as one writes it with Eigen: with sizes fixed at compile time, and with sizes at run time.
// Called by src/eigen.rs. Each function that is timed has its loop in here, so that Eigen's code can be
// inlined as it is for those who use it from C++.
#include <Eigen/Dense>
#include <cstddef>
#include <vector>

using Eigen::Dynamic;
using Eigen::Index;
using std::size_t;

// The same pointer, of which the compiler knows nothing any more, nor of any memory.
template <class T> static T *unknown(T *at) {
    asm volatile("" : "+r"(at) : : "memory");
    return at;
}

// Numbers that stand row after row, as a matrix.
template <class Matrix> static void load(Matrix &into, Index rows, Index cols, const float *from) {
    into.resize(rows, cols);
    for (Index i = 0; i < rows; i++)
        for (Index j = 0; j < cols; j++) into(i, j) = from[i * cols + j];
}

// A matrix as numbers that stand row after row.
template <class Matrix> static void store(const Matrix &from, float *into) {
    for (Index i = 0; i < from.rows(); i++)
        for (Index j = 0; j < from.cols(); j++) into[i * from.cols() + j] = from(i, j);
}

// The model of a filter, where it starts, and its readings, m numbers each.
struct Model {
    size_t n, m;
    const float *x, *a, *p, *q, *h, *r, *z;
    size_t readings;
};

// Predict and correct restore x and P before each call. The answers tell whether every factor was found.
struct AnyFilter {
    virtual ~AnyFilter() = default;
    virtual bool predict(size_t count) = 0;
    virtual bool correct(size_t count) = 0;
    virtual bool chain(size_t count) = 0;
    virtual void read(float *x, float *p) const = 0;
};

// N states and M readings, or Dynamic both.
template <int N, int M> class Filter final : public AnyFilter {
    template <int Rows, int Cols> using Matrix = Eigen::Matrix<float, Rows, Cols>;

    Matrix<N, 1> x, x_at_first;
    Matrix<N, N> A, P, Q, P_at_first;
    Matrix<M, N> H;
    Matrix<M, M> R;
    Matrix<M, 1> z;
    std::vector<Matrix<M, 1>> readings;

    void predict_once() {
        x = A * x;
        P = A * P * A.transpose() + Q;
    }

    bool correct_once() {
        const Matrix<M, 1> y = z - H * x;
        const Matrix<M, N> HP = H * P;
        const Matrix<M, M> S = HP * H.transpose() + R;
        const Eigen::LLT<Matrix<M, M>> factor(S);
        if (factor.info() != Eigen::Success) return false;
        // P and S are symmetric: the gain P * H^T * S^-1 is the transpose of S^-1 * H * P.
        const Matrix<N, M> K = factor.solve(HP).transpose();
        x += K * y;
        P -= K * HP;
        return true;
    }

    Filter *restored() {
        Filter *f = unknown(this);
        f->x = x_at_first;
        f->P = P_at_first;
        return unknown(f);
    }

public:
    explicit Filter(const Model &from) : readings(from.readings) {
        const Index n = from.n, m = from.m;
        load(x, n, 1, from.x);
        load(A, n, n, from.a);
        load(P, n, n, from.p);
        load(Q, n, n, from.q);
        load(H, m, n, from.h);
        load(R, m, m, from.r);
        for (size_t i = 0; i < readings.size(); i++) load(readings[i], m, 1, from.z + i * m);
        x_at_first = x;
        P_at_first = P;
        z = readings[0];
    }

    bool predict(size_t count) override {
        for (; count > 0; count--) restored()->predict_once();
        return true;
    }

    bool correct(size_t count) override {
        bool all = true;
        for (; count > 0; count--) all &= restored()->correct_once();
        return all;
    }

    bool chain(size_t count) override {
        bool all = true;
        size_t next = 0;
        for (; count > 0; count--) {
            Filter *f = unknown(this);
            f->z = readings[next];
            if (++next == readings.size()) next = 0;
            f->predict_once();
            all &= f->correct_once();
        }
        z = readings[0];
        return all;
    }

    void read(float *x_into, float *p_into) const override {
        store(x, x_into);
        store(P, p_into);
    }
};

// A filter with sizes fixed at compile time, or null where these are not among them.
static AnyFilter *fixed_filter(const Model &from) {
    const auto is = [&](size_t n, size_t m) { return from.n == n && from.m == m; };
    if (is(1, 1)) return new Filter<1, 1>(from);
    if (is(2, 1)) return new Filter<2, 1>(from);
    if (is(4, 2)) return new Filter<4, 2>(from);
    if (is(6, 3)) return new Filter<6, 3>(from);
    if (is(9, 3)) return new Filter<9, 3>(from);
    if (is(16, 16)) return new Filter<16, 16>(from);
    return nullptr;
}

extern "C" {

AnyFilter *eigen_new(bool fixed, const Model *from) {
    if (fixed) return fixed_filter(*from);
    return new Filter<Dynamic, Dynamic>(*from);
}

void eigen_free(AnyFilter *filter) { delete filter; }

bool eigen_predict(AnyFilter *filter, size_t count) { return filter->predict(count); }

bool eigen_correct(AnyFilter *filter, size_t count) { return filter->correct(count); }

bool eigen_chain(AnyFilter *filter, size_t count) { return filter->chain(count); }

void eigen_read(const AnyFilter *filter, float *x, float *p) { filter->read(x, p); }
}
