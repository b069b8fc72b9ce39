use core::fmt;

use crate::calls::Leg;

/// Commands in a row, or `nothing`.
pub(crate) struct Row<'a>(pub(crate) &'a [u8]);

impl fmt::Display for Row<'_> {
    fn fmt(&self, f: &mut fmt::Formatter<'_>) -> fmt::Result {
        let Some((first, rest)) = self.0.split_first() else {
            return f.write_str("nothing");
        };
        write!(f, "{first}")?;
        for command in rest {
            write!(f, " {command}")?;
        }
        Ok(())
    }
}

/// A plan as lines: what to send, then the legs with their commands.
pub(crate) fn lines<'a>(
    f: &mut fmt::Formatter<'_>,
    commands: &[u8],
    steps: impl Iterator<Item = (Leg, &'a [u8])>,
) -> fmt::Result {
    writeln!(f, "send {}", Row(commands))?;
    for (Leg { item, upper, lower }, commands) in steps {
        writeln!(
            f,
            "item {item} from point {upper} to {lower}: {}",
            Row(commands)
        )?;
    }
    Ok(())
}
