// Fits what it is sent, and sends the mesh back without a copy.
import { fit, load } from "../../js/index.js";

addEventListener("message", async ({ data: { module, heights, width, height, options } }) => {
  await load(module);
  const mesh = fit(heights, width, height, options);
  postMessage(mesh, [mesh.positions.buffer, mesh.indices.buffer]);
});
