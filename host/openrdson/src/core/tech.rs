//! The stack and the layer maps that stacking reads: names, heights, thicknesses, and a via's two layers. The other fields
//! are the original's, so that a program's literals stand; no call looks at them.
use std::collections::BTreeMap;

/// Physical names by logical ones.
#[derive(Debug, Clone, Default)]
pub struct LayerMap {
    pub conducting: BTreeMap<String, String>,
    pub via: BTreeMap<String, String>,
}

impl LayerMap {
    /// The physical name, from the conducting map first.
    pub(crate) fn physical(&self, logical: &str) -> Option<&str> {
        self.conducting.get(logical).or_else(|| self.via.get(logical)).map(String::as_str)
    }
}

#[derive(Debug, Clone, Default, PartialEq)]
pub struct Conductor {
    pub name: String,
    /// Of the layer's bottom, in meters.
    pub height: Option<f64>,
    pub thickness: Option<f64>,
    pub resistivity: Vec<f64>,
    pub layer_type: Option<String>,
    pub gate_forming_layer: bool,
    pub temp_tc1: Option<f64>,
    pub temp_tc2: Option<f64>,
}

#[derive(Debug, Clone, Default, PartialEq)]
pub struct Dielectric {
    pub name: String,
    pub height: Option<f64>,
    pub thickness: Option<f64>,
    pub dielectric_constant: Option<f64>,
    pub conformal: bool,
    pub expanded_from: Option<String>,
    pub top_thickness: Option<f64>,
    pub side_expand: Option<f64>,
    pub theta: Option<f64>,
}

#[derive(Debug, Clone, Default, PartialEq)]
pub struct Diffusion {
    pub name: String,
    pub height: Option<f64>,
    pub thickness: Option<f64>,
    pub resistivity: Vec<f64>,
}

#[derive(Debug, Clone, Default, PartialEq)]
pub struct Via {
    pub name: String,
    pub top_layer: Option<String>,
    pub bottom_layer: Option<String>,
    pub area_resistance: Vec<f64>,
    pub min_width: Option<f64>,
    pub min_spacing: Option<f64>,
    pub min_top_encl: Option<f64>,
    pub min_bot_encl: Option<f64>,
    pub temp_tc1: Option<f64>,
    pub temp_tc2: Option<f64>,
}

#[derive(Debug, Clone, Default)]
pub struct TechStack {
    pub process: String,
    pub temp_reference: Option<f64>,
    pub conductors: Vec<Conductor>,
    pub dielectrics: Vec<Dielectric>,
    pub diffusions: Vec<Diffusion>,
    pub vias: Vec<Via>,
}

impl TechStack {
    pub fn conductor(&self, name: &str) -> Option<&Conductor> {
        self.conductors.iter().find(|one| one.name == name)
    }

    pub fn diffusion(&self, name: &str) -> Option<&Diffusion> {
        self.diffusions.iter().find(|one| one.name == name)
    }

    pub fn via(&self, name: &str) -> Option<&Via> {
        self.vias.iter().find(|one| one.name == name)
    }

    /// Conductors, diffusions, then vias.
    pub(crate) fn materials(&self) -> Vec<String> {
        let conductors = self.conductors.iter().map(|one| &one.name);
        let diffusions = self.diffusions.iter().map(|one| &one.name);
        conductors.chain(diffusions).chain(self.vias.iter().map(|one| &one.name)).cloned().collect()
    }
}
