pub mod find_longest_prefix_contained_within;
pub mod string_builder;
