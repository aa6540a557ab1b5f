/* How many elements an array has. */
#ifndef HOST_LENGTH_H
#define HOST_LENGTH_H

#define LENGTH(array) (sizeof(array) / sizeof *(array))

#endif
