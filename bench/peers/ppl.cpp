// The route of a sheet with the Parma Polyhedra Library: one polyhedron over the parameters and the clocks is carried
// along the route, and what is left of it is projected on the parameters. It says for which rational numbers a run follows
// the route, and gives no pieces and no bounds of clocks. A shared library for bench/src/ppl.rs, which bench/run builds:
//
//   g++ -O3 -shared -fPIC -o target/bench/ppl.so bench/peers/ppl.cpp -lppl -lgmpxx -lgmp
//
// A file that is handed in has to be a readable sheet (docs/FORMAT.md).
// To be fast: the dimensions are the parameters and the clocks alone; the polyhedron is a closed one where no limit on
// the route is strict; the limits of a place are made once, if the route comes there, and added all at once; nothing is
// minimized unless the library asks for it; and the work ends as soon as nothing is left. A reset takes what is known of
// a clock away and says that it is 0, which the library follows step by step; after an affine image it starts anew
// (up to 15 times slower, a tenth faster at best). A wait adds a ray, which is what time_elapse_assign does too.
#include <cstddef>
#include <cstdint>
#include <vector>
#include <ppl.hh>

using namespace Parma_Polyhedra_Library;

namespace {

// The library sets the machine's rounding when it is loaded; polyhedra do not need it, and the caller has its own.
[[maybe_unused]] const bool rounding_as_before = (restore_pre_PPL_rounding(), true);

// Reads fields one after another.
struct Fields {
    const uint8_t *at;

    // The next byte.
    int byte() { return *at++; }

    // The next number of two bytes.
    int number() {
        int low = byte();
        return static_cast<int16_t>(low | byte() << 8);
    }
};

// The limits of a location or of a transition: where they stand in the file, and the constraints once they are made.
struct Place {
    Fields limits;
    bool made = false;
    Constraint_System constraints;
};

struct Transition {
    int to;
    int resets;
    Place place;
};

// A sheet. Parameter k, from 0, is dimension k, and clock i, from 1, is dimension parameters + i - 1.
class Sheet {
public:
    int parameters;
    int clocks;
    std::vector<Place> locations;
    std::vector<Transition> transitions;
    std::vector<int> route;
    Constraint_System start;  // the ranges, and all clocks at 0
    bool strict = false;      // whether a limit on the route is

    // The sheet of a file; the constraints of its route are made.
    explicit Sheet(const uint8_t *file) : coefficients(file[0] == 2 ? 4 : 3) {
        Fields fields{file + 22};
        parameters = fields.byte();
        for (int k = 0; k < parameters; k++) {
            start.insert(Variable(k) >= fields.number());
            start.insert(Variable(k) <= fields.number());
        }
        clocks = fields.byte();
        for (int i = 1; i <= clocks; i++) start.insert(clock(i) == 0);
        for (int count = fields.byte(); count > 0; count--) locations.push_back(passed(fields));
        for (int count = fields.byte(); count > 0; count--) {
            fields.byte();
            int to = fields.byte(), resets = fields.byte();
            transitions.push_back({to, resets, passed(fields)});
        }
        for (int count = fields.byte(); count > 0; count--) route.push_back(fields.byte());
        make(locations[0]);
        for (int number : route) {
            make(transitions[number].place);
            make(locations[transitions[number].to]);
        }
    }

    // The dimension of a clock.
    Variable clock(int i) const { return Variable(parameters + i - 1); }

private:
    int coefficients;  // of a limit in the file

    // The place whose limits come next, which are passed over.
    Place passed(Fields &fields) const {
        Place place{fields, false, Constraint_System()};
        int count = fields.byte();
        fields.at += count * (6 + 2 * coefficients);
        return place;
    }

    // Makes the constraints of a place: a - b at most or below constant + sum of coefficient × parameter.
    void make(Place &place) {
        if (place.made) return;
        Fields fields = place.limits;
        for (int count = fields.byte(); count > 0; count--) {
            int a = fields.byte(), b = fields.byte(), below = fields.byte();
            fields.byte();
            Linear_Expression rest(fields.number());
            for (int k = 0; k < coefficients; k++) {
                int coefficient = fields.number();
                if (coefficient != 0) rest += coefficient * Variable(k);
            }
            if (a != 0) rest -= clock(a);
            if (b != 0) rest += clock(b);
            place.constraints.insert(below ? rest > 0 : rest >= 0);
            strict |= below == 1;
        }
        place.made = true;
    }
};

// The clocks of the bits become 0.
template <class Polyhedron>
void reset(const Sheet &sheet, int bits, Polyhedron &states) {
    Variables_Set clocks;
    Constraint_System zero;
    for (int i = 1; i <= sheet.clocks; i++) {
        if (bits >> (i - 1) & 1) {
            clocks.insert(sheet.clock(i));
            zero.insert(sheet.clock(i) == 0);
        }
    }
    if (bits != 0) {
        states.unconstrain(clocks);
        states.add_constraints(zero);
    }
}

// The numbers of the parameters under which a run follows the route. The dimensions are the parameters alone.
template <class Polyhedron>
Polyhedron projection(const Sheet &sheet) {
    Linear_Expression together;
    for (int i = 1; i <= sheet.clocks; i++) together += sheet.clock(i);
    Generator wait = ray(together);
    Polyhedron states(sheet.parameters + sheet.clocks, UNIVERSE);
    states.add_constraints(sheet.start);
    const Place *here = &sheet.locations[0];
    states.add_constraints(here->constraints);
    for (int number : sheet.route) {
        const Transition &transition = sheet.transitions[number];
        if (states.is_empty()) break;
        states.add_generator(wait);
        states.add_constraints(here->constraints);
        states.add_constraints(transition.place.constraints);
        if (states.is_empty()) break;
        reset(sheet, transition.resets, states);
        here = &sheet.locations[transition.to];
        states.add_constraints(here->constraints);
    }
    if (!states.is_empty()) {
        states.add_generator(wait);
        states.add_constraints(here->constraints);
    }
    states.remove_higher_space_dimensions(sheet.parameters);
    return states;
}

// The same as one would write it first: not necessarily closed polyhedra throughout, the library's own time elapse, a reset
// as an affine image, and all moves to the end.
NNC_Polyhedron plain_projection(const Sheet &sheet) {
    NNC_Polyhedron flow(sheet.parameters + sheet.clocks, UNIVERSE);
    for (int k = 0; k < sheet.parameters; k++) flow.add_constraint(Variable(k) == 0);
    for (int i = 1; i <= sheet.clocks; i++) flow.add_constraint(sheet.clock(i) == 1);
    NNC_Polyhedron states(sheet.parameters + sheet.clocks, UNIVERSE);
    states.add_constraints(sheet.start);
    const Place *here = &sheet.locations[0];
    states.add_constraints(here->constraints);
    for (int number : sheet.route) {
        const Transition &transition = sheet.transitions[number];
        states.time_elapse_assign(flow);
        states.add_constraints(here->constraints);
        states.add_constraints(transition.place.constraints);
        for (int i = 1; i <= sheet.clocks; i++) {
            if (transition.resets >> (i - 1) & 1) states.affine_image(sheet.clock(i), Linear_Expression(0));
        }
        here = &sheet.locations[transition.to];
        states.add_constraints(here->constraints);
    }
    states.time_elapse_assign(flow);
    states.add_constraints(here->constraints);
    states.remove_higher_space_dimensions(sheet.parameters);
    return states;
}

// 1 if a valuation lies in the projection, else 0.
template <class Polyhedron>
int holds(const Polyhedron &projection, const int64_t *valuation) {
    Linear_Expression numbers;
    for (dimension_type k = projection.space_dimension(); k-- > 0;) numbers += Coefficient(valuation[k]) * Variable(k);
    return projection.relation_with(point(numbers)).implies(Poly_Gen_Relation::subsumes());
}

// Writes 1 or 0 for each of some valuations, four numbers each.
template <class Polyhedron>
void answer(const Polyhedron &projection, const int64_t *valuations, size_t count, uint8_t *answers) {
    for (size_t k = 0; k < count; k++) answers[k] = holds(projection, valuations + 4 * k);
}

}  // namespace

// 1 if the projection of a sheet holds any numbers, else 0.
extern "C" int ppl_route(const uint8_t *file) {
    Sheet sheet(file);
    return sheet.strict ? !projection<NNC_Polyhedron>(sheet).is_empty() : !projection<C_Polyhedron>(sheet).is_empty();
}

// The same by the plain projection.
extern "C" int ppl_plain(const uint8_t *file) { return !plain_projection(Sheet(file)).is_empty(); }

// Writes for each of some valuations, four numbers each, whether the projection of a sheet holds it: 1 or 0.
extern "C" void ppl_holds(const uint8_t *file, const int64_t *valuations, size_t count, uint8_t *answers) {
    Sheet sheet(file);
    if (sheet.strict) {
        answer(projection<NNC_Polyhedron>(sheet), valuations, count, answers);
    } else {
        answer(projection<C_Polyhedron>(sheet), valuations, count, answers);
    }
}
