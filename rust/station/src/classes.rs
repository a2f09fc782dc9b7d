//! The voxels of a box by class of density, as a table.

use crate::report::{grouped, line, number, triple};

/// A line for each class: its ends, how many voxels it has, and how much of the box that is.
pub fn table(limits: &[f32], low: &[i32; 3], high: &[i32; 3], counts: &[u64]) -> String {
    let total: u128 = counts.iter().map(|count| u128::from(*count)).sum();
    let each = counts.iter().enumerate().map(|(class, count)| {
        let share = 100.0 * *count as f64 / total.max(1) as f64;
        line(
            &format!("  {}", ends(limits, class)),
            &format!("{} ({share:.1} %)", grouped((*count).into())),
        )
    });
    let head = format!("classes {} to {}", triple(low), triple(high));
    line(&head, &format!("{} voxels", grouped(total))) + &each.collect::<String>()
}

fn ends(limits: &[f32], class: usize) -> String {
    match (class.checked_sub(1).map(|i| number(limits[i])), limits.get(class).map(|v| number(*v))) {
        (None, Some(above)) => format!("below {above}"),
        (Some(from), Some(above)) => format!("{from} to below {above}"),
        (from, None) => format!("{} or more", from.unwrap_or_default()),
    }
}

#[cfg(test)]
mod tests {
    use super::*;

    #[test]
    fn a_line_for_each_class() {
        let text = table(&[0.25, 0.75], &[-8, 0, 0], &[-1, 7, 7], &[0, 512, 0]);
        let lines: Vec<&str> = text.lines().collect();
        assert_eq!(lines.len(), 4);
        assert!(lines[0].starts_with("classes (-8, 0, 0) to (-1, 7, 7)"));
        assert!(lines[0].ends_with("512 voxels"));
        assert_eq!(lines[1], "  below 0.25     0 (0.0 %)");
        assert_eq!(lines[2], "  0.25 to below 0.75 512 (100.0 %)");
        assert_eq!(lines[3], "  0.75 or more   0 (0.0 %)");
    }

    #[test]
    fn an_empty_box_has_none_of_none() {
        assert!(table(&[1.0], &[0; 3], &[-1; 3], &[0, 0]).contains("  below 1        0 (0.0 %)"));
    }
}
