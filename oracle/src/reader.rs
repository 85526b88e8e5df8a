//! The model file read by the table of refusals: six layers in a row, dense, three GRUs, two dense.

/// A layer's header, and where it stands with its arrays.
#[derive(Clone, Copy, Debug, PartialEq)]
pub struct Layer {
    pub inputs: usize,
    pub neurons: usize,
    pub activation: u8,
    pub offset: usize,
    pub length: usize,
}

/// A refusal's number and layer.
#[derive(Clone, Copy, Debug, PartialEq)]
pub struct Refusal {
    pub number: u32,
    pub layer: u32,
}

pub fn is_gru(layer: usize) -> bool {
    (1..=3).contains(&layer)
}

/// The lengths of a layer's arrays: input weights, recurrent weights, bias.
pub fn arrays(layer: usize, inputs: usize, neurons: usize) -> [usize; 3] {
    if is_gru(layer) {
        [3 * inputs * neurons, 3 * neurons * neurons, 3 * neurons]
    } else {
        [inputs * neurons, 0, neurons]
    }
}

/// The layer that starts at `offset`, or its refusal's number.
fn layer(file: &[u8], offset: usize, layer: usize, fifteen: bool) -> Result<Layer, u32> {
    let left = &file[offset..];
    let [inputs, neurons, activation, ..] = *left else { return Err(11) };
    if inputs >= 128 {
        return Err(12);
    }
    if neurons >= 128 {
        return Err(13);
    }
    if activation > 2 {
        return Err(14);
    }
    if neurons == 0 && fifteen {
        return Err(15);
    }
    let (inputs, neurons) = (inputs as usize, neurons as usize);
    let length = 3 + arrays(layer, inputs, neurons).iter().sum::<usize>();
    if left.len() < length {
        return Err(16);
    }
    Ok(Layer { inputs, neurons, activation, offset, length })
}

/// The six layers, or the first refusal. `fifteen`: whether no neurons at all are refused, which the Rust does not ask.
pub fn read(file: &[u8], fifteen: bool) -> Result<[Layer; 6], Refusal> {
    let mut layers = Vec::new();
    let mut offset = 0;
    for number in 0..6 {
        let read = layer(file, offset, number, fifteen);
        let layer = read.map_err(|refused| Refusal { number: refused, layer: number as u32 })?;
        offset += layer.length;
        layers.push(layer);
    }
    let l: [Layer; 6] = layers.try_into().unwrap();
    let number = if offset != file.len() {
        17
    } else if l[0].inputs != 42 || l[4].neurons != 22 || l[5].neurons != 1 {
        18
    } else if l[0].neurons != l[1].inputs || l[1].neurons != l[5].inputs {
        19
    } else if 42 + l[0].neurons + l[1].neurons != l[2].inputs {
        20
    } else if 42 + l[1].neurons + l[2].neurons != l[3].inputs {
        21
    } else if l[3].neurons != l[4].inputs {
        22
    } else {
        return Ok(l);
    };
    Err(Refusal { number, layer: 6 })
}
