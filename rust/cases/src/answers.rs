//! What a program answers to an input, for comparing two programs.

use crate::Input;

/// What a call answers and leaves behind.
#[derive(Default)]
pub struct After {
    pub call: &'static str,
    pub result: Vec<u64>,
    pub table: Vec<u64>,
    pub slots: Vec<u8>,
    pub weights: Vec<u16>,
    pub plan: Vec<u8>,
    pub legs: Vec<u8>,
    pub page: Vec<u8>,
    /// Empty where it is free.
    pub scratch: Vec<u64>,
    pub out: Vec<u8>,
}

impl After {
    /// A call's lent buffers before it.
    pub fn lent(call: &'static str, input: &Input) -> After {
        After {
            call,
            table: input.table.clone(),
            slots: input.slots.clone(),
            weights: input.weights.clone(),
            plan: input.plan.clone(),
            legs: input.legs.clone(),
            page: input.page.clone(),
            ..After::default()
        }
    }

    /// Where the two differ.
    pub fn against(&self, other: &After) -> Vec<String> {
        fn part<T: PartialEq + std::fmt::Debug>(name: &str, a: &[T], b: &[T]) -> Option<String> {
            assert_eq!(a.len(), b.len());
            let at = (0..a.len()).find(|&at| a[at] != b[at])?;
            Some(format!("{name} at {at}: {:?} against {:?}", a[at], b[at]))
        }
        let parts = [
            part("result", &self.result, &other.result),
            part("table", &self.table, &other.table),
            part("slots", &self.slots, &other.slots),
            part("weights", &self.weights, &other.weights),
            part("plan", &self.plan, &other.plan),
            part("legs", &self.legs, &other.legs),
            part("page", &self.page, &other.page),
            part("scratch", &self.scratch, &other.scratch),
            part("out", &self.out, &other.out),
        ];
        parts.into_iter().flatten().collect()
    }
}

/// A function that makes all calls of a program on one input, but neither assembling with a scratch
/// nor finding a reverse.
#[macro_export]
macro_rules! answers {
    ($name:ident, $program:ident) => {
        fn $name(input: &$crate::Input) -> [$crate::After; 9] {
            use $crate::After;
            let (book, run) = (&input.book, &input.run);
            let mut read = After::lent("read", input);
            let a = &mut read;
            let r = $program::read(book, &mut a.table, &mut a.slots, &mut a.weights);
            a.result = vec![r.code, r.place, r.n, r.m, r.items];

            let mut check = After::lent("check", input);
            let a = &mut check;
            let r = $program::check(book, &mut a.table, &mut a.slots, &mut a.weights);
            a.result = vec![r.code, r.place, r.n, r.m, r.items, r.units];

            let r = $program::forecast(book, input.i);
            let forecast = After {
                call: "forecast",
                result: vec![r.code, r.place, r.units, r.plan_bytes, r.legs],
                ..After::default()
            };

            let mut assemble = After::lent("assemble", input);
            let a = &mut assemble;
            let (table, slots, weights) = (&mut a.table, &mut a.slots, &mut a.weights);
            let (plan, legs) = (&mut a.plan, &mut a.legs);
            let r = $program::assemble(book, run, table, slots, weights, plan, legs);
            a.result = vec![r.code, r.place, r.commands, r.legs, r.sum];
            a.result.extend(r.fewest.map(u64::from));

            let mut assemble_legs = After::lent("assemble_legs", input);
            let a = &mut assemble_legs;
            let mut legs: Vec<$program::Leg> = (input.leg_structs.iter())
                .map(|&[item, upper, lower]| $program::Leg { item, upper, lower })
                .collect();
            let (table, slots, weights) = (&mut a.table, &mut a.slots, &mut a.weights);
            let plan = &mut a.plan;
            let r = $program::assemble_legs(book, run, table, slots, weights, plan, &mut legs);
            a.result = vec![r.code, r.place, r.commands, r.legs, r.sum];
            a.result.extend(r.fewest.map(u64::from));
            a.legs = legs
                .iter()
                .flat_map(|leg| [leg.item, leg.upper, leg.lower])
                .collect();

            let mut page = After::lent("page", input);
            let a = &mut page;
            let (table, slots, weights) = (&mut a.table, &mut a.slots, &mut a.weights);
            let (plan, legs) = (&mut a.plan, &mut a.legs);
            let r = $program::page(book, run, table, slots, weights, plan, legs, &mut a.page);
            let length = r.length;
            let r = r.assembly;
            a.result = vec![r.code, r.place, r.commands, r.legs, r.sum, length];
            a.result.extend(r.fewest.map(u64::from));

            let out = input.out.clone();
            let mut write = After {
                call: "write",
                out,
                ..After::default()
            };
            let (n, m, items) = (input.n, input.m, input.items);
            let (table, slots) = (&input.write_table, &input.write_slots);
            let weights = &input.write_weights;
            let r = $program::write(n, m, items, table, slots, weights, &mut write.out);
            write.result = vec![r.code, r.place, r.length];

            let looked_up = |call, r: $program::Lookup| After {
                call,
                result: vec![r.code, r.place, r.mask],
                ..After::default()
            };
            let (state, command) = input.ridge;
            let ridge = looked_up("ridge", $program::ridge(state, command));
            let (state, command) = input.portable;
            let portable = looked_up("portable", $program::portable(state, command));

            [
                read,
                check,
                forecast,
                assemble,
                assemble_legs,
                page,
                write,
                ridge,
                portable,
            ]
        }
    };
}

/// A function that finds a reverse by a program.
#[macro_export]
macro_rules! answers_find {
    ($name:ident, $program:ident) => {
        fn $name(input: &$crate::FindInput) -> $crate::After {
            let mut a = $crate::After {
                call: "find",
                table: input.table.clone(),
                ..$crate::After::default()
            };
            let (book, forward) = (&input.book, &input.forward);
            let r = $program::find(book, forward, input.phi, input.psi, &mut a.table);
            a.result = vec![r.code, r.place, r.count];
            a.result.extend(r.commands.map(u64::from));
            a
        }
    };
}
