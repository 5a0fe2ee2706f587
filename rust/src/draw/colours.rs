//! A colour for each net.

/// Each is far from all those before it as the eye sees it, none is grey, and white numbers can be read on all.
pub const COLOURS: [&str; 64] = [
    "#1f6fc4", "#d64a12", "#1f8f4d", "#8a3fb0", "#a87d00", "#0093a8", "#d61f69", "#6b3a1e",
    "#003333", "#551133", "#aa88aa", "#334400", "#223366", "#ff11ff", "#aa8877", "#777755",
    "#775566", "#889911", "#8877ff", "#aa0022", "#336655", "#0000dd", "#ee6666", "#779988",
    "#775500", "#226677", "#0099ee", "#dd7700", "#666699", "#551177", "#557700", "#991166",
    "#ee6699", "#443300", "#006622", "#33aa00", "#660000", "#aa5555", "#cc33aa", "#5544ff",
    "#996644", "#553333", "#7788aa", "#008877", "#bb77dd", "#004422", "#aa44ff", "#0044bb",
    "#ee0033", "#883344", "#664477", "#889966", "#994400", "#aa6688", "#cc7755", "#5588ff",
    "#555533", "#998866", "#004466", "#aa6600", "#9966aa", "#bb7777", "#bb8855", "#bb2200",
];

/// The colour of the net with so many nets below it; with more nets than colours they come again.
pub fn colour(rank: usize) -> &'static str {
    COLOURS[rank % COLOURS.len()]
}
