// The colours of the page, by light and by dark. Those that mean something differ in brightness too, so that all eyes tell them apart.

const PALETTES = {
  light: {
    ...LIGHT, street: "#c9ccd1", junction: "#d9dbdf", mark: "#fff", closed: "#111", chosen: "#c000e0", detector: "#7b3294", name: "#333",
    density: [[214, 217, 222], [253, 174, 97], [123, 20, 20]],
  },
  dark: {
    ground: "#14171c", street: "#444a54", mark: "#8b93a1", ink: "#e6e9ee", label: "#30343c", junction: "#3a3f48", closed: "#fff", chosen: "#ff7bff", detector: "#d9a6ff",
    green: "#39d6a5", red: "#ff6b6b", name: "#c8cdd6", speeds: ["#ff6b6b", "#ffb454", "#6db3ff"], was: "#e6c35c", now: "#6db3ff", density: [[68, 74, 84], [217, 120, 40], [255, 236, 160]],
  },
};
let theme = matchMedia("(prefers-color-scheme: dark)").matches ? "dark" : "light";
const colours = () => PALETTES[theme];

// The colour of a share from none to all, over three.
function scaled([low, middle, high], share) {
  const [from, to, part] = share < .5 ? [low, middle, 2 * share] : [middle, high, 2 * share - 1];
  return `rgb(${from.map((value, i) => Math.round(value + (to[i] - value) * part)).join()})`;
}
