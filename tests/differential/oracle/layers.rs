//! The layers of the port, which land one by one.

/// A layer.
#[derive(Clone, Copy, PartialEq)]
pub enum Layer {
    Outer,
    Record,
    Parser,
    Guest,
    Host,
}

/// The layers whose calls a list has.
#[derive(Clone)]
pub struct Layers(Vec<Layer>);

impl Layers {
    /// The layers that a list of names says.
    pub fn parse(names: &str) -> Result<Self, String> {
        let layers: Result<Vec<Layer>, String> = names.split_whitespace().map(layer).collect();
        match layers {
            Ok(layers) if layers.is_empty() => Err("no layer is named".into()),
            other => other.map(Self),
        }
    }

    /// Whether the layer is there.
    pub fn on(&self, layer: Layer) -> bool {
        self.0.contains(&layer)
    }

    /// The layers in turn.
    pub fn iter(&self) -> impl Iterator<Item = Layer> + '_ {
        self.0.iter().copied()
    }
}

fn layer(name: &str) -> Result<Layer, String> {
    match name {
        "outer" => Ok(Layer::Outer),
        "record" => Ok(Layer::Record),
        "parser" => Ok(Layer::Parser),
        "guest" => Ok(Layer::Guest),
        "host" => Ok(Layer::Host),
        _ => Err(format!("no layer has the name {name}")),
    }
}
