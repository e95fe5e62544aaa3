//! The fillsheet of the model, from standard input to standard output.

fn main() -> std::io::Result<()> {
    model::from_input_to_output(model::fillsheet)
}
