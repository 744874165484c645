// Runs the tests of a table one after another, prints a row for each, and gives how many fail.
export function failing(tests) {
  let wrong = 0;
  for (const [name, holds] of Object.entries(tests)) {
    try {
      holds();
      console.log(`holds  node: ${name}`);
    } catch (error) {
      wrong++;
      console.log(`FAILS  node: ${name}: ${error.message}`);
    }
  }
  return wrong;
}
