// In a single file all of the style is there from the beginning.

export const tableStyle = async () => {};
