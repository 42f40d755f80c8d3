//! The groups that share a level and a mark: the one table of them.

pub const GROUP_COUNT: usize = 5;

/// The product numbers of each group.
pub const GROUPS: [&[usize]; GROUP_COUNT] = [&[0], &[1, 2, 3], &[4, 5], &[6], &[7]];

/// The Soybean Complex.
pub const COMPLEX: usize = 1;

/// Chicago Wheat and KC Wheat.
pub const WHEATS: usize = 2;

/// The groups of several products.
pub const COUPLED: [usize; 2] = [COMPLEX, WHEATS];

/// The group to which a product belongs.
pub fn group_of(product: usize) -> usize {
    let has_it = |products: &&[usize]| products.contains(&product);
    let group = GROUPS.iter().position(has_it);
    group.expect("every product is in a group")
}

#[cfg(test)]
mod tests {
    use super::*;
    use crate::book::PRODUCT_COUNT;

    #[test]
    fn each_product_is_in_its_group_alone() {
        for product in 0..PRODUCT_COUNT {
            let holders: Vec<usize> = (0..GROUP_COUNT)
                .filter(|&group| GROUPS[group].contains(&product))
                .collect();
            assert_eq!(holders, [group_of(product)]);
        }
    }

    #[test]
    fn coupled_groups_have_several_products() {
        for (group, products) in GROUPS.iter().enumerate() {
            assert_eq!(products.len() > 1, COUPLED.contains(&group), "{group}");
        }
    }

    #[test]
    fn groups_are_in_product_order() {
        let products: Vec<usize> = GROUPS.concat();
        assert_eq!(products, Vec::from_iter(0..PRODUCT_COUNT));
    }
}
